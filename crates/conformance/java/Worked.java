// Prints what Java itself gives for the worked cases. It takes a file of lines EXPRESSION = VALUE, leaves the values
// unread, has javac compile the expressions, and prints each line with the type and the value that Java gives, or
// `zero divisor` where Java throws for one. So a file that equals what is printed has Java's types and Java's values.
// An expression that Java does not take ends the run.
//
//     java crates/conformance/java/Worked.java crates/conformance/stdout | diff - crates/conformance/stdout
import java.io.IOException;
import java.lang.reflect.InvocationTargetException;
import java.net.URL;
import java.net.URLClassLoader;
import java.nio.file.Files;
import java.nio.file.Path;
import java.util.List;
import javax.tools.ToolProvider;

public class Worked {
    // Of the overloads of a method, javac chooses the one for the expression's type. A number that went through `of` is
    // no constant, so the machine computes with it when the case is run, and not the compiler.
    static final String METHODS = """
            static boolean of(boolean v) { return v; }
            static byte of(byte v) { return v; }
            static short of(short v) { return v; }
            static char of(char v) { return v; }
            static int of(int v) { return v; }
            static long of(long v) { return v; }
            static String show(boolean v) { return "(boolean) " + v; }
            static String show(byte v) { return "(byte) " + v; }
            static String show(short v) { return "(short) " + v; }
            static String show(char v) { return "(char) " + (int) v; }
            static String show(int v) { return "(int) " + v; }
            static String show(long v) { return "(long) " + v + "L"; }
            """;

    // The expression with each number passed through `of`.
    static String computed(String expression) {
        String computed = expression.replaceAll("\\((\\w+)\\) (-?\\w+)", "of(($1) $2)");
        if (computed.equals(expression)) {
            throw new IllegalArgumentException("no number in " + expression);
        }
        return computed;
    }

    static String source(List<String> expressions) {
        StringBuilder text = new StringBuilder("public class Cases {\n" + METHODS);
        for (int i = 0; i < expressions.size(); i++) {
            String shown = "show(" + computed(expressions.get(i)) + ")";
            text.append("public static String case" + i + "() { return " + shown + "; }\n");
        }
        return text.append("}\n").toString();
    }

    static Class<?> compiled(String source) throws IOException, ClassNotFoundException {
        Path folder = Files.createTempDirectory("cases");
        folder.toFile().deleteOnExit();
        Path file = Files.writeString(folder.resolve("Cases.java"), source);
        if (ToolProvider.getSystemJavaCompiler().run(null, null, null, "-Xlint:none", file.toString()) != 0) {
            throw new IOException("javac refused " + file);
        }
        file.toFile().deleteOnExit();
        folder.resolve("Cases.class").toFile().deleteOnExit();
        return new URLClassLoader(new URL[] {folder.toUri().toURL()}).loadClass("Cases");
    }

    static String answer(Class<?> cases, int i) throws ReflectiveOperationException {
        try {
            return (String) cases.getDeclaredMethod("case" + i).invoke(null);
        } catch (InvocationTargetException e) {
            if (e.getCause() instanceof ArithmeticException) {
                return "zero divisor";
            }
            throw e;
        }
    }

    public static void main(String[] words) throws Exception {
        List<String> lines = Files.readAllLines(Path.of(words[0]));
        List<String> expressions = lines.stream().map(line -> line.substring(0, line.indexOf(" = "))).toList();
        Class<?> cases = compiled(source(expressions));
        for (int i = 0; i < expressions.size(); i++) {
            System.out.println(expressions.get(i) + " = " + answer(cases, i));
        }
    }
}
