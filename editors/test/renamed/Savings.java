class Savings extends Account {
    static final class Quiet extends Log {
        synchronized void write(int amount) {
            if (amount > 100) {
                super.write(amount);
            }
        }
    }

    Savings() {
        super(new Quiet());
    }
}
