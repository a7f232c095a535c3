class Account {
    final Log log;
    private int balance = 0;

    Account(Log log) {
        this.log = log;
    }

    void add(int amount) {
        synchronized (this) {
            balance = balance + amount;
        }
        log.note(amount);
    }

    synchronized int balance() {
        return balance;
    }
}
