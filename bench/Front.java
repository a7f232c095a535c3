import com.sun.source.util.JavacTask;
import java.io.File;
import java.lang.management.ManagementFactory;
import java.lang.management.ThreadMXBean;
import java.util.ArrayList;
import java.util.Arrays;
import java.util.List;
import javax.tools.JavaCompiler;
import javax.tools.StandardJavaFileManager;
import javax.tools.ToolProvider;

/**
 * Takes the files through javac's front end to its flow phase, ten times in one process, and prints
 * the first time and the least, of the processor that the thread has.
 */
class Front {
    public static void main(String[] words) throws Exception {
        JavaCompiler compiler = ToolProvider.getSystemJavaCompiler();
        ThreadMXBean clock = ManagementFactory.getThreadMXBean();
        List<File> names = new ArrayList<>();
        for (int i = 1; i < words.length; i++) names.add(new File(words[i]));
        List<String> options = Arrays.asList("-proc:none", "-Xlint:none", "-nowarn");
        long first = 0;
        long least = Long.MAX_VALUE;
        int elements = 0;
        for (int run = 0; run < 10; run++) {
            StandardJavaFileManager files = compiler.getStandardFileManager(null, null, null);
            JavacTask task = (JavacTask) compiler.getTask(
                null, files, null, options, null, files.getJavaFileObjectsFromFiles(names)
            );
            long before = clock.getCurrentThreadCpuTime();
            elements = 0;
            for (Object element : task.analyze()) elements++;
            long spent = (clock.getCurrentThreadCpuTime() - before) / 1000000;
            if (run == 0) first = spent;
            least = Math.min(least, spent);
        }
        System.out.println("javac's front end over " + words[0] + ": " + first + " ms the first time, "
            + least + " at the least of ten, " + elements + " classes");
    }
}
