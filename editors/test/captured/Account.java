class Account {
    final Log log;
    private int amount = 0;

    Account(Log log) {
        this.log = log;
    }

    void add(int amount) {
        synchronized (this) {
            this.amount = this.amount + amount;
        }
        log.note(amount);
    }

    synchronized int balance() {
        return amount;
    }
}
