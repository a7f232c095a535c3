class Log {
    private int last = 0;
    volatile boolean open = true;

    synchronized void write(int amount) {
        last = amount;
    }

    synchronized int last() {
        return last;
    }
}
