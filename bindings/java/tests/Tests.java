package pipitscreen.slh;

import java.lang.reflect.InvocationTargetException;
import java.lang.reflect.Method;
import java.lang.reflect.Modifier;
import java.security.Security;
import java.util.Arrays;
import java.util.Comparator;
import java.util.List;
import java.util.Objects;

/**
 * Runs the tests: each method of the classes below that takes nothing, or those named by CLASS or CLASS.METHOD. The last
 * line has the counts, and the status is 0 if nothing failed and something was run or skipped.
 */
final class Tests {
    private static final List<Class<?>> CLASSES = List.of(VectorsTests.class, KeysTests.class, SignaturesTests.class,
            ManyTests.class, SecretsTests.class, OpenSslTests.class, KeyStoreTests.class, BouncyCastleTests.class,
            TlsTests.class);
    static final SlhProvider PROVIDER = new SlhProvider();

    private static int passed;
    private static int failed;
    private static int skipped;

    private Tests() {}

    /** Thrown by a test that can't run, with what is missing. */
    static final class Skipped extends RuntimeException {
        private static final long serialVersionUID = 1L;

        Skipped(String why) {
            super(why);
        }
    }

    /** What a test does. */
    interface Act {
        void run() throws Exception;
    }

    public static void main(String[] words) {
        Security.addProvider(PROVIDER);
        List<String> named = List.of(words);
        CLASSES.forEach(it -> runAll(it, named));
        System.out.println(passed + " passed, " + failed + " failed, " + skipped + " skipped");
        System.exit(failed == 0 && passed + skipped > 0 ? 0 : 1);
    }

    private static void runAll(Class<?> tests, List<String> named) {
        Arrays.stream(tests.getDeclaredMethods())
                .filter(it -> it.getParameterCount() == 0 && it.getReturnType() == void.class && !it.isSynthetic()
                        && !Modifier.isPrivate(it.getModifiers()))
                .filter(it -> named.isEmpty() || named.contains(tests.getSimpleName()) || named.contains(nameOf(it)))
                .sorted(Comparator.comparing(Method::getName)).forEach(Tests::run);
    }

    private static String nameOf(Method test) {
        return test.getDeclaringClass().getSimpleName() + "." + test.getName();
    }

    private static void run(Method test) {
        String name = nameOf(test);
        try {
            test.invoke(null);
            passed++;
            System.out.println(name + ": yes");
        } catch (InvocationTargetException | IllegalAccessException fault) {
            if (fault.getCause() instanceof Skipped why) {
                skipped++;
                System.out.println(name + ": SKIPPED, since " + why.getMessage());
                return;
            }
            failed++;
            fault.printStackTrace(System.out);
            System.out.println(name + ": no");
        }
    }

    static void expect(boolean isSo, String what) {
        if (!isSo) {
            throw new AssertionError(what);
        }
    }

    static void same(Object found, Object wanted, String what) {
        expect(Objects.deepEquals(found, wanted), what + ": " + found + ", and not " + wanted);
    }

    /** Expects an exception, and returns its message. */
    static String throwsA(Class<? extends Throwable> wanted, Act act) {
        try {
            act.run();
        } catch (Throwable fault) {
            expect(wanted.isInstance(fault), "another exception: " + fault);
            return String.valueOf(fault.getMessage());
        }
        throw new AssertionError("no " + wanted.getSimpleName());
    }

    /** Expects an exception whose cause is the refusal of this number and name. */
    static void refuses(int number, String name, Act act) {
        try {
            act.run();
        } catch (Exception fault) {
            expect(fault.getCause() instanceof Refusal it && it.number() == number && it.name().equals(name)
                    && fault.getMessage().startsWith(number + " " + name + ": "), "another exception: " + fault);
            return;
        }
        throw new AssertionError("no " + name);
    }
}
