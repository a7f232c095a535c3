class Teller extends Thread {
	private final Account account;
	private final int rounds;

	Teller(Account account, int rounds) {
		this.account = account;
		this.rounds = rounds;
	}

	public void run() {
		int done = 0;
		while (done < rounds) {
			account.add(1);
			done++;
		}
		account.log.write(done);
	}
}
