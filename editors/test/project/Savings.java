class Savings extends Account {
    static final class Quiet extends Log {
        synchronized void note(int amount) {
            if (amount > 100) {
                super.note(amount);
            }
        }
    }

    Savings() {
        super(new Quiet());
    }
}
