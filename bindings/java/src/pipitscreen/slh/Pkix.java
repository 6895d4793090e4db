package pipitscreen.slh;

import java.lang.foreign.MemorySegment;
import java.lang.foreign.ValueLayout;
import java.nio.charset.StandardCharsets;
import java.security.InvalidKeyException;
import java.util.Arrays;

/**
 * Keys as other programs read them: SubjectPublicKeyInfo and PKCS#8, as DER and PEM. The library reads and writes one
 * form of each set and kind.
 */
final class Pkix {
    /** The library's numbers of the kinds. */
    private static final int PUBLIC = 1;
    private static final int PRIVATE = 2;
    private static final int MAX_PRIVATE_KEY = 128;
    /** The most bytes that the library writes, with a zero byte after PEM. */
    private static final int MAX_DER = 150;
    private static final int MAX_PEM = 259;
    private static final byte[] ENCRYPTED = "-----BEGIN ENCRYPTED PRIVATE".getBytes(StandardCharsets.US_ASCII);
    private static final String CONVERT_PUBLIC = "openssl pkey -pubin -in FILE -pubout -out NEW";
    private static final String CONVERT_PRIVATE = "openssl pkey -in FILE -out NEW";

    private Pkix() {}

    static SlhPublicKey publicKey(byte[] file, boolean isPem) throws InvalidKeyException {
        try (Memory key = new Memory(MAX_PRIVATE_KEY)) {
            SlhSet set = read(false, file, isPem, key);
            return new SlhPublicKey(set, key.first(set.publicKeyLength()).toBytes());
        }
    }

    static SlhPrivateKey privateKey(byte[] file, boolean isPem) throws InvalidKeyException {
        try (Memory key = new Memory(MAX_PRIVATE_KEY)) {
            SlhSet set = read(true, file, isPem, key);
            return new SlhPrivateKey(set, Memory.copyOf(key.first(set.privateKeyLength()).segment()));
        }
    }

    /** Writes the key of a file, and zeros behind it. Returns the set. */
    private static SlhSet read(boolean isPrivate, byte[] file, boolean isPem, Memory key) throws InvalidKeyException {
        try (Memory given = Memory.copyOf(file); Memory numbers = new Memory(2 * Integer.BYTES)) {
            MemorySegment set = numbers.segment().asSlice(0, Integer.BYTES);
            MemorySegment kind = numbers.segment().asSlice(Integer.BYTES);
            int result = Library.call(isPem ? "slh_pem_read" : "slh_der_read", given, set, kind, key);
            if (result != Library.DONE && result != Refusal.NOT_A_KEY_FILE) {
                throw refused(new Refusal(result));
            }
            boolean isDone = result == Library.DONE;
            if (!isDone || kind.get(ValueLayout.JAVA_INT, 0) != (isPrivate ? PRIVATE : PUBLIC)) {
                throw refused(new Refusal(Refusal.NOT_A_KEY_FILE, why(isPrivate, file, isPem, isDone)));
            }
            return SlhSet.values()[set.get(ValueLayout.JAVA_INT, 0) - 1];
        }
    }

    /** Why a key is refused, and the command that converts it. */
    private static String why(boolean isPrivate, byte[] file, boolean isPem, boolean isOtherKind) {
        if (!isPrivate && isOtherKind) {
            return "the key is private, and a public one is asked for";
        }
        String convert = isPrivate ? CONVERT_PRIVATE : CONVERT_PUBLIC;
        if (!isPem) {
            convert = convert.replace("-in FILE", "-inform DER -in FILE").replace("-out NEW", "-outform DER -out NEW");
        }
        int most = Math.min(file.length, ENCRYPTED.length);
        if (Arrays.equals(ENCRYPTED, 0, ENCRYPTED.length, file, 0, most)) {
            return "the key is encrypted; this asks for its password: " + convert;
        }
        String kind = isPrivate ? "private" : "public";
        return "this is not the one form of a " + kind + " key of the six sets; this converts it: " + convert;
    }

    /** The DER or PEM of a key. That of a private key is the receiver's to overwrite. */
    static byte[] written(SlhKey key, boolean isPem) {
        int kind = key instanceof SlhPrivateKey ? PRIVATE : PUBLIC;
        try (Memory taken = key.taken(); Memory made = new Memory(isPem ? MAX_PEM : MAX_DER);
                Memory length = new Memory(Integer.BYTES)) {
            String call = isPem ? "slh_pem_write" : "slh_der_write";
            Library.done(call, key.set.number(), kind, taken, length.segment(), made);
            return made.first(length.segment().get(ValueLayout.JAVA_INT, 0)).toBytes();
        }
    }

    static void checkLength(String kind, SlhSet set, int expected, int given) throws InvalidKeyException {
        if (expected != given) {
            throw refused(new Refusal(Refusal.BAD_LENGTH, "a " + kind + " key of " + set.algorithm() + " has "
                    + expected + " bytes, and " + given + " were given"));
        }
    }

    private static InvalidKeyException refused(Refusal refusal) {
        return new InvalidKeyException(refusal.getMessage(), refusal);
    }
}
