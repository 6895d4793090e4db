package pipitscreen.slh;

import java.beans.XMLEncoder;
import java.io.ByteArrayInputStream;
import java.io.ByteArrayOutputStream;
import java.io.IOException;
import java.io.NotSerializableException;
import java.io.ObjectInputStream;
import java.io.ObjectOutputStream;
import java.io.PrintStream;
import java.io.PrintWriter;
import java.io.Serializable;
import java.io.StringWriter;
import java.lang.foreign.MemorySegment;
import java.lang.foreign.ValueLayout;
import java.lang.ref.WeakReference;
import java.lang.reflect.Array;
import java.lang.reflect.Field;
import java.lang.reflect.InaccessibleObjectException;
import java.lang.reflect.Method;
import java.lang.reflect.Modifier;
import java.nio.charset.StandardCharsets;
import java.nio.file.Path;
import java.security.KeyPair;
import java.security.PrivateKey;
import java.security.Signature;
import java.security.SignatureException;
import java.security.spec.InvalidKeySpecException;
import java.security.spec.PKCS8EncodedKeySpec;
import java.text.MessageFormat;
import java.util.ArrayDeque;
import java.util.ArrayList;
import java.util.Arrays;
import java.util.Base64;
import java.util.Collections;
import java.util.Deque;
import java.util.HashMap;
import java.util.HexFormat;
import java.util.IdentityHashMap;
import java.util.LinkedHashMap;
import java.util.List;
import java.util.Map;
import java.util.Objects;
import java.util.Optional;
import java.util.Set;
import java.util.concurrent.CompletableFuture;
import java.util.concurrent.atomic.AtomicReference;
import java.util.function.Function;
import java.util.function.Supplier;
import java.util.logging.Formatter;
import java.util.logging.Level;
import java.util.logging.LogRecord;
import java.util.logging.SimpleFormatter;
import java.util.logging.XMLFormatter;

/**
 * A private key is not printed, serialised or kept: ways of printing times holders of a key. Each output is searched
 * for 8 bytes in a row of SK.seed or SK.prf. So that the search means something, each way has to find those of a key
 * that is not protected.
 */
final class SecretsTests {
    private SecretsTests() {}

    // ---- holders ----

    /** What a key without protection is. */
    static final class Leaky implements PrivateKey {
        private static final long serialVersionUID = 1L;
        private final byte[] bytes;

        Leaky(byte[] bytes) {
            this.bytes = bytes;
        }

        @Override
        public String getAlgorithm() {
            return "SLH-DSA";
        }

        @Override
        public String getFormat() {
            return null;
        }

        @Override
        public byte[] getEncoded() {
            return null;
        }

        public byte[] secret() {
            return bytes;
        }

        @Override
        public String toString() {
            return HexFormat.of().formatHex(bytes);
        }
    }

    record Recorded(String name, Object key) implements Serializable {}

    /** An object with getters, as beans are. */
    public static final class Bean implements Serializable {
        private static final long serialVersionUID = 1L;
        private PrivateKey key;
        private transient PrivateKey passed;

        public PrivateKey getKey() {
            return key;
        }

        public void setKey(PrivateKey given) {
            key = given;
            passed = given;
        }
    }

    static final class Failure extends RuntimeException {
        private static final long serialVersionUID = 1L;
        private final PrivateKey key;

        Failure(PrivateKey key) {
            super("failed with " + key);
            this.key = key;
        }
    }

    private static Map<String, Object> holders(PrivateKey key) {
        Map<String, Object> all = new LinkedHashMap<>();
        Bean bean = new Bean();
        bean.setKey(key);
        ThreadLocal<PrivateKey> local = new ThreadLocal<>();
        local.set(key);
        all.put("itself", key);
        all.put("a list", new ArrayList<>(List.of(key)));
        all.put("an array", new PrivateKey[] {key});
        all.put("a map", new HashMap<>(Map.of("key", key)));
        all.put("the key of a map", new HashMap<>(Map.of(key, "value")));
        all.put("a set", Set.of(key));
        all.put("a deque", new ArrayDeque<>(List.of(key)));
        all.put("an optional", Optional.of(key));
        all.put("a record", new Recorded("a", key));
        all.put("a bean", bean);
        all.put("an exception", new Failure(key));
        all.put("a cause", new IllegalStateException("outer", new Failure(key)));
        all.put("a suppressed exception", suppressed(key));
        all.put("a reference", new AtomicReference<>(key));
        all.put("a future", CompletableFuture.completedFuture(key));
        all.put("a local of a thread", local);
        all.put("a lambda", (Supplier<PrivateKey> & Serializable) () -> key);
        all.put("nested", List.of(Map.of("a", new Recorded("b", List.of(bean, Optional.of(key))))));
        if (key instanceof SlhPrivateKey it) {
            all.put("a pair", new KeyPair(it.publicKey(), key));
            all.put("a signature", signing(key));
        }
        return all;
    }

    private static Exception suppressed(PrivateKey key) {
        Exception made = new Exception("outer");
        made.addSuppressed(new Failure(key));
        return made;
    }

    private static Signature signing(PrivateKey key) {
        try {
            Signature made = Signature.getInstance("SLH-DSA", Tests.PROVIDER);
            made.initSign(key);
            return made;
        } catch (Exception fault) {
            throw new AssertionError(fault);
        }
    }

    // ---- ways ----

    private static Map<String, Function<Object, String>> ways() {
        Map<String, Function<Object, String>> all = new LinkedHashMap<>();
        all.put("toString", String::valueOf);
        all.put("a sum", it -> "key: " + it + "; " + new StringBuilder().append(it));
        all.put("a format", it -> String.format("%s %S %20s %h", it, it, it, it).toLowerCase());
        all.put("a message format", it -> MessageFormat.format("{0} {1}", it, List.of(it)));
        all.put("an array's text", it -> Arrays.deepToString(new Object[] {it, new Object[] {it}}));
        all.put("Objects", it -> Objects.toString(it) + Objects.toIdentityString(it) + Objects.hash(it));
        all.put("a stream", SecretsTests::printed);
        all.put("logging", it -> logged(it, new SimpleFormatter()) + logged(it, new XMLFormatter()));
        all.put("a stack trace", SecretsTests::traced);
        all.put("an assertion", SecretsTests::asserted);
        all.put("a string's join", it -> String.join(",", List.of(String.valueOf(it))));
        all.put("serialisation", SecretsTests::serialised);
        all.put("XML of beans", SecretsTests::xmlOf);
        all.put("fields by reflection", it -> walked(it, false));
        all.put("fields and methods by reflection", it -> walked(it, true));
        return all;
    }

    private static String printed(Object it) {
        ByteArrayOutputStream out = new ByteArrayOutputStream();
        PrintStream stream = new PrintStream(out);
        stream.println(it);
        stream.printf("%s%n", it);
        stream.append(String.valueOf(it)).flush();
        return out.toString(StandardCharsets.ISO_8859_1);
    }

    private static String logged(Object it, Formatter formatter) {
        LogRecord made = new LogRecord(Level.SEVERE, "key {0}");
        made.setParameters(new Object[] {it});
        made.setThrown(it instanceof Throwable fault ? fault : new IllegalStateException("with " + it));
        return formatter.format(made);
    }

    private static String traced(Object it) {
        StringWriter out = new StringWriter();
        Throwable fault = it instanceof Throwable given ? given : new IllegalStateException(String.valueOf(it));
        fault.printStackTrace(new PrintWriter(out, true));
        return out.toString();
    }

    private static String asserted(Object it) {
        try {
            throw new AssertionError(it);
        } catch (AssertionError fault) {
            return fault.toString() + fault.getMessage() + fault.getLocalizedMessage();
        }
    }

    /** What is written, also where it ends with an exception. */
    private static String serialised(Object it) {
        ByteArrayOutputStream out = new ByteArrayOutputStream();
        String said = "";
        try (ObjectOutputStream stream = new ObjectOutputStream(out)) {
            stream.writeObject(it);
        } catch (IOException fault) {
            said = fault.toString();
        }
        return out.toString(StandardCharsets.ISO_8859_1) + said;
    }

    private static String xmlOf(Object it) {
        ByteArrayOutputStream out = new ByteArrayOutputStream();
        try (XMLEncoder encoder = new XMLEncoder(out)) {
            encoder.setExceptionListener(fault -> out.writeBytes(fault.toString().getBytes(StandardCharsets.UTF_8)));
            encoder.writeObject(it);
            encoder.writeObject(new String[] {String.valueOf(it)});
        }
        return out.toString(StandardCharsets.ISO_8859_1);
    }

    // ---- reflection ----

    /** What makes copies or no value of the key: getEncoded gives the bytes, as the page says, and others end it. */
    private static final Set<String> NOT_CALLED = Set.of("getEncoded", "destroy", "close", "notify", "notifyAll",
            "wait", "clone");

    /** All that is found by walking over fields and elements, and over what methods without parameters return. */
    private static String walked(Object from, boolean calls) {
        StringBuilder out = new StringBuilder();
        Map<Object, Boolean> seen = new IdentityHashMap<>();
        Deque<Object> left = new ArrayDeque<>(List.of(from));
        while (!left.isEmpty() && seen.size() < 20_000) {
            Object it = left.pop();
            if (seen.put(it, true) != null || it instanceof Class || it instanceof Thread) {
                continue;
            }
            out.append(written(it)).append('\n');
            parts(it, calls).stream().filter(Objects::nonNull).forEach(left::add);
        }
        return out.toString();
    }

    private static String written(Object it) {
        if (it instanceof byte[] bytes) {
            return new String(bytes, StandardCharsets.ISO_8859_1);
        }
        return it.getClass().isArray() ? "" : String.valueOf(it);
    }

    private static List<Object> parts(Object it, boolean calls) {
        List<Object> found = new ArrayList<>();
        if (it instanceof Object[] array) {
            return Arrays.asList(array);
        }
        if (it.getClass().isArray() || it instanceof String || it instanceof Number) {
            return found;
        }
        if (it instanceof Iterable<?> items && !(it instanceof Path)) {
            items.forEach(found::add);
        }
        if (it instanceof Map<?, ?> map) {
            found.addAll(map.keySet());
            found.addAll(map.values());
        }
        for (Class<?> type = it.getClass(); type != null; type = type.getSuperclass()) {
            addFields(it, type, found);
        }
        if (calls && it.getClass().getPackageName().startsWith("pipitscreen")) {
            addResults(it, found);
        }
        return found;
    }

    private static void addFields(Object it, Class<?> type, List<Object> found) {
        for (Field field : type.getDeclaredFields()) {
            try {
                if (!Modifier.isStatic(field.getModifiers())) {
                    field.setAccessible(true);
                    found.add(field.get(it));
                }
            } catch (InaccessibleObjectException | IllegalAccessException fault) {
                // A field of the JDK's own, which is closed to other modules.
            }
        }
    }

    private static void addResults(Object it, List<Object> found) {
        for (Method method : it.getClass().getMethods()) {
            boolean isCalled = method.getParameterCount() == 0 && method.getReturnType() != void.class;
            if (isCalled && !NOT_CALLED.contains(method.getName())) {
                try {
                    method.setAccessible(true);
                    found.add(method.invoke(it));
                } catch (ReflectiveOperationException | InaccessibleObjectException fault) {
                    // A method that can't be called now.
                }
            }
        }
    }

    // ---- the search ----

    /** Whether a text has 8 bytes in a row of a secret: raw, as digits, as decimal numbers, or in base64. */
    private static boolean finds(byte[] secret, String output) {
        String digits = output.toLowerCase().replaceAll("[^0-9a-f]", "");
        String numbers = output.replaceAll("[^-0-9,]", "");
        for (int at = 0; at + 8 <= secret.length; at++) {
            byte[] wanted = Arrays.copyOfRange(secret, at, at + 8);
            String decimal = Arrays.toString(wanted).replaceAll("[^-0-9,]", "");
            if (output.contains(new String(wanted, StandardCharsets.ISO_8859_1)) || numbers.contains(decimal)
                    || digits.contains(HexFormat.of().formatHex(wanted)) || hasBase64(wanted, output)) {
                return true;
            }
        }
        return false;
    }

    /** The digits of base64 that are of these bytes alone, where they begin at each place of three. */
    private static boolean hasBase64(byte[] wanted, String output) {
        for (int before = 0; before < 3; before++) {
            byte[] padded = new byte[before + wanted.length];
            System.arraycopy(wanted, 0, padded, before, wanted.length);
            String text = Base64.getEncoder().encodeToString(padded);
            if (output.contains(text.substring((8 * before + 5) / 6, (8 * before + 64) / 6))) {
                return true;
            }
        }
        return false;
    }

    private static byte[] secrets(SlhPrivateKey key) {
        byte[] der = key.getEncoded();
        return Arrays.copyOfRange(der, der.length - 64, der.length - 32);
    }

    private static SlhPrivateKey key() throws Exception {
        return (SlhPrivateKey) KeysTests.pair(SlhSet.SHA2_128F).getPrivate();
    }

    // ---- the tests ----

    static void noWayShowsAKey() throws Exception {
        SlhPrivateKey key = key();
        byte[] secret = secrets(key);
        List<String> shown = new ArrayList<>();
        ways().forEach((way, act) -> holders(key).forEach((name, holder) -> {
            if (finds(secret, act.apply(holder))) {
                shown.add(way + " of " + name);
            }
        }));
        Tests.same(shown, List.of(), "ways that show the key");
    }

    /** Each way finds a key that is not protected: by itself, and in holders. */
    static void eachWayWouldFindOne() throws Exception {
        byte[] secret = secrets(key());
        for (Map.Entry<String, Function<Object, String>> way : ways().entrySet()) {
            List<String> found = new ArrayList<>();
            holders(new Leaky(secret)).forEach((name, holder) -> {
                if (finds(secret, way.getValue().apply(holder))) {
                    found.add(name);
                }
            });
            Tests.expect(found.contains("itself") && found.size() >= 8, way.getKey() + " finds only " + found);
        }
        for (String it : new String[] {new String(secret, StandardCharsets.ISO_8859_1), Arrays.toString(secret),
                HexFormat.ofDelimiter(":").formatHex(secret), Base64.getEncoder().encodeToString(secret)}) {
            Tests.expect(finds(secret, "x" + it), "it is not found: " + it);
        }
        Tests.expect(!finds(secret, HexFormat.of().formatHex(new byte[32])), "zeros are found");
    }

    static void aKeyIsPrintedAsItsSet() throws Exception {
        SlhPrivateKey key = key();
        Tests.same(key.toString(), "SLH-DSA-SHA2-128F private key", "the text");
        String text = key.publicKey().toString();
        Tests.expect(text.matches("SLH-DSA-SHA2-128F public key SHA256:[A-Za-z0-9+/]{43}"), text);
    }

    static void serialisationIsRefused() throws Exception {
        SlhPrivateKey key = key();
        for (Object it : new Object[] {key, List.of(key), new Recorded("a", key), new KeyPair(key.publicKey(), key)}) {
            Tests.throwsA(NotSerializableException.class,
                    () -> new ObjectOutputStream(new ByteArrayOutputStream()).writeObject(it));
        }
        ByteArrayOutputStream out = new ByteArrayOutputStream();
        new ObjectOutputStream(out).writeObject(key.publicKey());
        Object again = new ObjectInputStream(new ByteArrayInputStream(out.toByteArray())).readObject();
        Tests.same(again, key.publicKey(), "a public key");
    }

    static void destroyEndsTheKey() throws Exception {
        SlhPrivateKey key = key();
        MemorySegment segment = key.segment();
        Tests.expect(segment.isNative() && !segment.isMapped(), "the bytes are on the heap");
        Signature signing = signing(key);
        Tests.expect(!key.isDestroyed(), "it is destroyed");
        key.destroy();
        key.destroy();
        Tests.expect(key.isDestroyed() && !segment.scope().isAlive(), "the memory is still there");
        Class<IllegalStateException> refused = IllegalStateException.class;
        for (Tests.Act act : new Tests.Act[] {key::getEncoded, key::check, () -> SlhPem.encode(key)}) {
            Tests.expect(Tests.throwsA(refused, act).contains("was destroyed"), "the reason");
        }
        String why = Tests.throwsA(InvalidKeySpecException.class,
                () -> KeysTests.factory().getKeySpec(key, PKCS8EncodedKeySpec.class));
        Tests.expect(why.contains("was destroyed"), why);
        String said = Tests.throwsA(SignatureException.class, signing::sign);
        Tests.expect(said.contains("was destroyed"), said);
        Tests.same(key.toString() + key.getAlgorithm(), "SLH-DSA-SHA2-128F private keySLH-DSA-SHA2-128F", "its name");
        try (SlhPrivateKey other = key()) {
            segment = other.segment();
        }
        Tests.expect(!segment.scope().isAlive(), "the end of try");
    }

    /** The bytes are overwritten before the memory is freed: by close, and by the collector. */
    static void memoryIsErased() {
        List<Byte> seen = Collections.synchronizedList(new ArrayList<>());
        Function<MemorySegment, Boolean> isErased = it -> {
            seen.add(it.get(ValueLayout.JAVA_BYTE, 0));
            return it.get(ValueLayout.JAVA_BYTE, 0) == 0;
        };
        Memory memory = Memory.copyOf(new byte[] {7});
        Tests.expect(!isErased.apply(memory.segment()), "nothing was copied");
        Library.erase(memory.segment());
        Tests.expect(isErased.apply(memory.segment()), "it is not overwritten");
        memory.close();
        Tests.throwsA(IllegalStateException.class, () -> isErased.apply(memory.segment()));
    }

    static void aForgottenKeyIsErased() throws Exception {
        SlhPrivateKey key = key();
        MemorySegment segment = key.segment();
        WeakReference<SlhPrivateKey> reference = new WeakReference<>(key);
        key = null;
        for (int turn = 0; turn < 3000 && segment.scope().isAlive(); turn++) {
            System.gc();
            Thread.sleep(20);
        }
        Tests.expect(reference.get() == null && !segment.scope().isAlive(), "the memory is still there");
    }

    /** A private key of another provider, whose getEncoded gives the array that it has. */
    private static final class Stranger implements PrivateKey {
        private static final long serialVersionUID = 1L;
        private final byte[] der;

        Stranger(byte[] der) {
            this.der = der;
        }

        @Override
        public String getAlgorithm() {
            return "SLH-DSA";
        }

        @Override
        public String getFormat() {
            return "PKCS#8";
        }

        @Override
        public byte[] getEncoded() {
            return der;
        }
    }

    /** A specification that gives the array that it has. */
    private static final class OpenSpec extends PKCS8EncodedKeySpec {
        private final byte[] der;

        OpenSpec(byte[] der) {
            super(der);
            this.der = der;
        }

        @Override
        public byte[] getEncoded() {
            return der;
        }
    }

    static void theArrayOfAStrangersKeyStaysAsItIs() throws Exception {
        SlhPrivateKey key = key();
        byte[] der = key.getEncoded();
        PrivateKey stranger = new Stranger(der);
        for (int turn = 0; turn < 2; turn++) {
            Signature signing = signing(stranger);
            byte[] signature = signing.sign();
            Signature verifying = Signature.getInstance("SLH-DSA", Tests.PROVIDER);
            verifying.initVerify(key.publicKey());
            Tests.expect(verifying.verify(signature), "the signature of turn " + turn);
        }
        Tests.same(KeysTests.factory().translateKey(stranger), key, "the key that was translated");
        KeysTests.factory().getKeySpec(stranger, PKCS8EncodedKeySpec.class);
        Tests.same(KeysTests.factory().generatePrivate(new OpenSpec(der)), key, "the key of an open specification");
        Tests.same(der, key.getEncoded(), "the stranger's array");
    }

    /** The arrays of encodings that the factory was given are its own copies, which it overwrites. */
    static void givenBytesStayTheCallers() throws Exception {
        SlhPrivateKey key = key();
        byte[] der = key.getEncoded();
        PrivateKey again = KeysTests.factory().generatePrivate(new PKCS8EncodedKeySpec(der));
        Tests.same(again, key, "the key");
        Tests.same(der, key.getEncoded(), "the caller's array");
        Tests.expect(Array.getLength(der) == 84, "its length");
    }
}
