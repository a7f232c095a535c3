// The class files of programs, without names of locals: a line a rename, each class with a digest
// of its file and one of what stands in it, or `refused` and javac's codes. A program is a line:
// its renames, then names and texts, with tabs between them. What is renamed (`class K L`,
// `field K x y`, `method K m (I)V k`, with `,` between two, and `|` between two renames) has its
// new name in what the second digest is of, and each field and method there has the class that
// declares it.
import java.io.*;
import java.net.URI;
import java.nio.file.*;
import java.security.MessageDigest;
import java.util.*;
import javax.tools.*;
import jdk.internal.org.objectweb.asm.*;
import jdk.internal.org.objectweb.asm.commons.*;
import jdk.internal.org.objectweb.asm.util.*;

public class Classes {
    // Whether what stands in the class files is shown, for one who looks at a difference.
    static final boolean SHOWN = Boolean.getBoolean("shown");

    static class Source extends SimpleJavaFileObject {
        final String text;

        Source(String name, String text) {
            super(URI.create("string:///" + name), Kind.SOURCE);
            this.text = text;
        }

        @Override
        public CharSequence getCharContent(boolean ignore) {
            return text;
        }

        @Override
        public boolean isNameCompatible(String simpleName, Kind kind) {
            return kind == Kind.SOURCE;
        }
    }

    static class Made extends SimpleJavaFileObject {
        final ByteArrayOutputStream bytes = new ByteArrayOutputStream();

        Made(String name) {
            super(URI.create("mem:///" + name.replace('.', '/') + ".class"), Kind.CLASS);
        }

        @Override
        public OutputStream openOutputStream() {
            return bytes;
        }
    }

    static class Memory extends ForwardingJavaFileManager<JavaFileManager> {
        final TreeMap<String, Made> made = new TreeMap<>();

        Memory(JavaFileManager files) {
            super(files);
        }

        @Override
        public JavaFileObject getJavaFileForOutput(
            Location where, String name, JavaFileObject.Kind kind, FileObject sibling
        ) {
            return made.computeIfAbsent(name, Made::new);
        }
    }

    static String digest(byte[] bytes) throws Exception {
        byte[] all = MessageDigest.getInstance("SHA-1").digest(bytes);
        StringBuilder out = new StringBuilder();
        for (int i = 0; i < 8; i++) out.append(String.format("%02x", all[i]));
        return out.toString();
    }

    // The classes of a program: each with its superclass and the members that it declares. A bridge
    // is javac's own, for the method of its name above.
    static class Declared extends ClassVisitor {
        final Map<String, String> above = new HashMap<>();
        final Set<String> members = new HashSet<>();
        final Set<String> ofJavac = new HashSet<>();
        String now;

        Declared() {
            super(Opcodes.ASM8);
        }

        @Override
        public void visit(int v, int access, String name, String s, String above, String[] i) {
            now = name;
            this.above.put(name, above);
            if ((access & Opcodes.ACC_SYNTHETIC) != 0) ofJavac.add(name);
        }

        @Override
        public FieldVisitor visitField(int access, String name, String desc, String s, Object v) {
            members.add(now + " " + name + " " + desc);
            return null;
        }

        @Override
        public MethodVisitor visitMethod(int a, String name, String desc, String s, String[] x) {
            if ((a & Opcodes.ACC_BRIDGE) == 0) members.add(now + " " + name + " " + desc);
            return null;
        }

        // The class that declares what is found in this one (JVMS 5.4.3).
        String owner(String in, String name, String desc) {
            for (String one = in; one != null; one = above.get(one))
                if (members.contains(one + " " + name + " " + desc)) return one;
            return in;
        }
    }

    static class Renames extends Remapper {
        final Declared declared;
        final Map<String, String> names = new HashMap<>();

        Renames(Declared declared, String all) {
            this.declared = declared;
            for (String one : all.split(",")) {
                int at = one.lastIndexOf(' ');
                if (at > 0) names.put(one.substring(0, at), one.substring(at + 1));
            }
        }

        // A class of javac's own (`A$1`, the type of a parameter by which a private constructor is
        // called from another class) is named after the class at the top in which it is needed.
        @Override
        public String map(String name) {
            int at = name.lastIndexOf('$');
            if (declared.ofJavac.contains(name))
                return map(name.substring(0, at)) + name.substring(at);
            return names.getOrDefault("class " + name, name);
        }

        @Override
        public String mapFieldName(String owner, String name, String desc) {
            String in = declared.owner(owner, name, desc);
            return names.getOrDefault("field " + in + " " + name, name);
        }

        @Override
        public String mapMethodName(String owner, String name, String desc) {
            String in = declared.owner(owner, name, desc);
            return names.getOrDefault("method " + in + " " + name + " " + desc, name);
        }
    }

    // Each field and method that is named has the class that declares it. Which classes are inner
    // ones is left out: the file tells it of those that it names.
    static class Owners extends ClassVisitor {
        final Declared declared;

        Owners(Declared declared, ClassVisitor to) {
            super(Opcodes.ASM8, to);
            this.declared = declared;
        }

        @Override
        public void visitInnerClass(String name, String outer, String inner, int access) {}

        @Override
        public MethodVisitor visitMethod(int a, String n, String d, String s, String[] x) {
            return new MethodVisitor(Opcodes.ASM8, super.visitMethod(a, n, d, s, x)) {
                @Override
                public void visitFieldInsn(int code, String in, String name, String desc) {
                    super.visitFieldInsn(code, declared.owner(in, name, desc), name, desc);
                }

                @Override
                public void visitMethodInsn(
                    int code, String in, String name, String desc, boolean is
                ) {
                    super.visitMethodInsn(code, declared.owner(in, name, desc), name, desc, is);
                }
            };
        }
    }

    static String shape(Made made, Declared declared, Renames renames) throws Exception {
        StringWriter text = new StringWriter();
        ClassVisitor printed = new TraceClassVisitor(null, new Textifier(), new PrintWriter(text));
        ClassVisitor all = new Owners(declared, new ClassRemapper(printed, renames));
        new ClassReader(made.bytes.toByteArray()).accept(
            all, ClassReader.SKIP_DEBUG | ClassReader.SKIP_FRAMES);
        return text.toString();
    }

    public static void main(String[] words) throws Exception {
        JavaCompiler compiler = ToolProvider.getSystemJavaCompiler();
        JavaFileManager files = compiler.getStandardFileManager(null, null, null);
        List<String> options = Arrays.asList(
            "-proc:none", "-Xlint:none", "-source", "8", "-target", "8", "-g:none", "-nowarn"
        );
        for (String line : Files.readAllLines(Paths.get(words[0]))) {
            String[] parts = line.split("\t", -1);
            List<Source> sources = new ArrayList<>();
            for (int i = 1; i + 1 < parts.length; i += 2)
                sources.add(new Source(parts[i], parts[i + 1]));
            Memory memory = new Memory(files);
            StringWriter said = new StringWriter();
            TreeSet<String> why = new TreeSet<>();
            JavaCompiler.CompilationTask task = compiler.getTask(said, memory, d -> {
                if (d.getKind() == Diagnostic.Kind.ERROR)
                    why.add(d.getCode().replace("compiler.err.", ""));
            }, options, null, sources);
            boolean taken = task.call();
            Declared declared = new Declared();
            if (taken)
                for (Made one : memory.made.values())
                    new ClassReader(one.bytes.toByteArray()).accept(declared, 0);
            for (String all : parts[0].split("\\|", -1)) {
                Renames renames = new Renames(declared, all);
                System.out.println(taken
                    ? "ok" + made(memory, declared, renames)
                    : "refused " + String.join(" ", why));
            }
        }
    }

    static String made(Memory memory, Declared declared, Renames renames) throws Exception {
        TreeMap<String, String> all = new TreeMap<>();
        for (Map.Entry<String, Made> one : memory.made.entrySet()) {
            String shape = shape(one.getValue(), declared, renames);
            if (SHOWN) System.err.println(shape);
            byte[] bytes = one.getValue().bytes.toByteArray();
            all.put(renames.map(one.getKey().replace('.', '/')),
                digest(bytes) + " " + digest(shape.getBytes("UTF-8")));
        }
        StringBuilder out = new StringBuilder();
        for (Map.Entry<String, String> one : all.entrySet())
            out.append("\t" + one.getKey() + " " + one.getValue());
        return out.toString();
    }
}
