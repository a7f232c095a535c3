import com.sun.tools.javac.parser.Scanner;
import com.sun.tools.javac.parser.ScannerFactory;
import com.sun.tools.javac.parser.Tokens.TokenKind;
import com.sun.tools.javac.util.Context;
import java.nio.file.Files;
import java.nio.file.Path;

/** Scans a file with the scanner of javac, thirty times in one process, and prints the first time and the least. */
class Scan {
    public static void main(String[] arguments) throws Exception {
        String text = new String(Files.readAllBytes(Path.of(arguments[0])), "UTF-8");
        Context context = new Context();
        ScannerFactory factory = ScannerFactory.instance(context);
        long first = 0;
        long least = Long.MAX_VALUE;
        int count = 0;
        for (int run = 0; run < 30; run++) {
            long before = System.nanoTime();
            Scanner scanner = factory.newScanner(text, false);
            count = 0;
            do {
                scanner.nextToken();
                count++;
            } while (scanner.token().kind != TokenKind.EOF);
            long spent = (System.nanoTime() - before) / 1000;
            if (run == 0) first = spent;
            least = Math.min(least, spent);
        }
        System.out.println("javac's scanner: " + first + " microseconds the first time, " + least
            + " at the least of thirty, " + count + " tokens");
    }
}
