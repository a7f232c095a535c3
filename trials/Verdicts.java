// What javac says of programs: a line a program, `ok` or `refused` with places and codes, and
// behind `ok` each reference with what javac binds it to. A program is a line of names and texts,
// with tabs between them.
import com.sun.source.tree.*;
import com.sun.source.util.*;
import java.net.URI;
import java.nio.file.*;
import java.util.*;
import javax.lang.model.element.*;
import javax.lang.model.type.TypeMirror;
import javax.lang.model.util.Types;
import javax.tools.*;

public class Verdicts {
    static class Source extends SimpleJavaFileObject {
        final String text;

        Source(String name, String text) {
            super(URI.create("string:///" + name), Kind.SOURCE);
            this.text = text;
        }

        @Override
        public CharSequence getCharContent(boolean ignore) {
            return text;
        }

        // That a public class stands in a file of its name isn't asked for.
        @Override
        public boolean isNameCompatible(String simpleName, Kind kind) {
            return kind == Kind.SOURCE;
        }
    }

    static String typeText(TypeMirror type, Types types) {
        Element element = types.asElement(type);
        return element == null ? type.toString() : declText(element, types, null);
    }

    static String declText(Element element, Types types, Map<Element, Integer> locals) {
        Element owner = element.getEnclosingElement();
        switch (element.getKind()) {
            case CLASS:
                String name = element.getSimpleName().toString();
                boolean isTop = owner.getKind() == ElementKind.PACKAGE;
                return isTop ? name : owner.getSimpleName() + "." + name;
            case FIELD:
                return declText(owner, types, locals) + "." + element.getSimpleName();
            case METHOD:
            case CONSTRUCTOR:
                StringJoiner params = new StringJoiner(",", "(", ")");
                for (VariableElement p : ((ExecutableElement) element).getParameters())
                    params.add(typeText(p.asType(), types));
                boolean isMethod = element.getKind() == ElementKind.METHOD;
                String called = isMethod ? element.getSimpleName().toString() : "new";
                return declText(owner, types, locals) + "." + called + params;
            case LOCAL_VARIABLE:
            case PARAMETER:
                return declText(owner, types, locals) + "#" + locals.get(element);
            default:
                return element.getKind().toString();
        }
    }

    // The locals of a unit with their numbers in their members, in text order.
    static Map<Element, Integer> numbers(CompilationUnitTree unit, Trees trees) {
        Map<Element, Integer> found = new HashMap<>();
        new TreePathScanner<Void, int[]>() {
            @Override
            public Void visitMethod(MethodTree method, int[] next) {
                return super.visitMethod(method, new int[] {0});
            }

            @Override
            public Void visitVariable(VariableTree variable, int[] next) {
                Element element = trees.getElement(getCurrentPath());
                if (element != null && element.getKind() != ElementKind.FIELD)
                    found.put(element, next[0]++);
                return super.visitVariable(variable, next);
            }
        }.scan(unit, new int[] {0});
        return found;
    }

    static void references(CompilationUnitTree unit, JavacTask task, StringBuilder out)
        throws java.io.IOException {
        String text = unit.getSourceFile().getCharContent(true).toString();
        Trees trees = Trees.instance(task);
        SourcePositions positions = trees.getSourcePositions();
        Map<Element, Integer> locals = numbers(unit, trees);
        TreeMap<Long, String> lines = new TreeMap<>();
        new TreePathScanner<Void, Void>() {
            void line(long at, String word, Element element) {
                if (at < 0 || element == null || !text.startsWith(word, (int) at)) return;
                lines.put(at, at + " " + word + " " + declText(element, task.getTypes(), locals));
            }

            @Override
            public Void visitIdentifier(IdentifierTree tree, Void none) {
                String name = tree.getName().toString();
                Element element = trees.getElement(getCurrentPath());
                boolean isCall = element != null && element.getKind() == ElementKind.CONSTRUCTOR;
                if (!name.equals("this") && (!name.equals("super") || isCall))
                    line(positions.getStartPosition(unit, tree), name, element);
                return super.visitIdentifier(tree, none);
            }

            @Override
            public Void visitMemberSelect(MemberSelectTree tree, Void none) {
                String name = tree.getIdentifier().toString();
                Element element = trees.getElement(getCurrentPath());
                if (!name.equals("class") && !name.equals("super"))
                    line(positions.getEndPosition(unit, tree) - name.length(), name, element);
                return super.visitMemberSelect(tree, none);
            }

            @Override
            public Void visitNewClass(NewClassTree tree, Void none) {
                Element element = trees.getElement(getCurrentPath());
                line(positions.getStartPosition(unit, tree), "new", element);
                return super.visitNewClass(tree, none);
            }

            @Override
            public Void visitPackage(PackageTree tree, Void none) {
                return null;
            }
        }.scan(unit, null);
        for (String line : lines.values()) out.append("\t").append(line);
    }

    static String verdict(JavaCompiler compiler, List<Source> sources) throws Exception {
        DiagnosticCollector<JavaFileObject> seen = new DiagnosticCollector<>();
        List<String> options =
            Arrays.asList("-proc:none", "-Xlint:none", "-source", "8", "-nowarn");
        JavacTask task = (JavacTask) compiler.getTask(null, null, seen, options, null, sources);
        List<CompilationUnitTree> units = new ArrayList<>();
        for (CompilationUnitTree unit : task.parse()) units.add(unit);
        try {
            task.analyze();
        } catch (IllegalStateException fault) {
            return "refused\t-1:0 javac ends with a fault of its own";
        }
        StringBuilder out = new StringBuilder();
        for (Diagnostic<? extends JavaFileObject> d : seen.getDiagnostics()) {
            if (d.getKind() != Diagnostic.Kind.ERROR) continue;
            int file = d.getSource() == null ? -1 : sources.indexOf(d.getSource());
            String code = d.getCode().replace("compiler.err.", "");
            out.append("\t" + file + ":" + d.getStartPosition() + " " + code);
        }
        if (out.length() > 0) return "refused" + out;
        for (CompilationUnitTree unit : units) {
            out.append("\tFILE");
            references(unit, task, out);
        }
        return "ok" + out;
    }

    public static void main(String[] words) throws Exception {
        JavaCompiler compiler = ToolProvider.getSystemJavaCompiler();
        for (String line : Files.readAllLines(Paths.get(words[0]))) {
            String[] parts = line.split("\t", -1);
            List<Source> sources = new ArrayList<>();
            for (int i = 0; i + 1 < parts.length; i += 2)
                sources.add(new Source(parts[i], parts[i + 1]));
            System.out.println(verdict(compiler, sources));
        }
    }
}
