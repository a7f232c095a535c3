class Bank {
    static String sign = "🏦 öffentlich";

    static int serve(Account account) {
        Teller first = new Teller(account, 5);
        Teller second = new Teller(account, 7);
        first.start();
        second.start();
        /* 🏦🏦 */ account.log.note(0); account.log.open = false;
        return account.balance();
    }
}
