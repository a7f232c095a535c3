import com.sun.source.tree.CompilationUnitTree;
import com.sun.source.util.JavacTask;
import java.io.File;
import java.lang.management.ManagementFactory;
import java.lang.management.ThreadMXBean;
import java.util.Arrays;
import javax.tools.JavaCompiler;
import javax.tools.JavaFileObject;
import javax.tools.StandardJavaFileManager;
import javax.tools.ToolProvider;

/**
 * Parses each file with javac's parser, thirty times in one process, and prints the first time and the least, of the
 * processor that the parsing thread has.
 */
class Parse {
    public static void main(String[] names) throws Exception {
        JavaCompiler compiler = ToolProvider.getSystemJavaCompiler();
        ThreadMXBean clock = ManagementFactory.getThreadMXBean();
        for (String name : names) {
            long first = 0;
            long least = Long.MAX_VALUE;
            int classes = 0;
            for (int run = 0; run < 30; run++) {
                StandardJavaFileManager files = compiler.getStandardFileManager(null, null, null);
                Iterable<? extends JavaFileObject> file =
                    files.getJavaFileObjectsFromFiles(Arrays.asList(new File(name)));
                JavacTask task = (JavacTask) compiler.getTask(null, files, null, Arrays.asList("-proc:none"), null, file);
                long before = clock.getCurrentThreadCpuTime();
                classes = 0;
                for (CompilationUnitTree unit : task.parse()) classes += unit.getTypeDecls().size();
                long spent = (clock.getCurrentThreadCpuTime() - before) / 1000;
                if (run == 0) first = spent;
                least = Math.min(least, spent);
            }
            System.out.println("javac's parser over " + name + ": " + first + " microseconds the first time, "
                + least + " at the least of thirty, " + classes + " class");
        }
    }
}
