package pipitscreen.slh;

import java.nio.ByteBuffer;
import java.security.InvalidAlgorithmParameterException;
import java.security.InvalidKeyException;
import java.security.KeyPair;
import java.security.NoSuchAlgorithmException;
import java.security.PrivateKey;
import java.security.Signature;
import java.security.SignatureException;
import java.security.spec.ECGenParameterSpec;
import java.security.spec.PKCS8EncodedKeySpec;
import java.util.Arrays;
import java.util.stream.IntStream;

/** Signing and verifying by the rules of all packages. */
final class SignaturesTests {
    private static final byte[] MESSAGE = "Dear reader,".getBytes();
    private static final SlhSignatureSpec PLAIN = SlhSignatureSpec.DEFAULT;

    private SignaturesTests() {}

    /** Of each set. tests/test_java.py runs the self-test over a library with another answer. */
    static void selfTests() {
        for (SlhSet set : SlhSet.values()) {
            set.selfTest();
        }
    }

    private static byte[] signed(String algorithm, PrivateKey key, SlhSignatureSpec spec) throws Exception {
        Signature signing = Signature.getInstance(algorithm, Tests.PROVIDER);
        signing.initSign(key);
        signing.setParameter(spec);
        signing.update(MESSAGE);
        return signing.sign();
    }

    private static boolean isValid(String algorithm, KeyPair pair, SlhSignatureSpec spec, byte[] signature)
            throws Exception {
        Signature verifying = Signature.getInstance(algorithm, Tests.PROVIDER);
        verifying.initVerify(pair.getPublic());
        verifying.setParameter(spec);
        verifying.update(MESSAGE);
        return verifying.verify(signature);
    }

    static void contextsBind() throws Exception {
        KeyPair pair = KeysTests.pair(SlhSet.SHA2_128F);
        SlhSignatureSpec letters = PLAIN.withContext("letters".getBytes());
        byte[] signature = signed("SLH-DSA", pair.getPrivate(), letters);
        Tests.expect(isValid("SLH-DSA", pair, letters, signature), "its own context");
        Tests.expect(!isValid("SLH-DSA", pair, PLAIN, signature), "no context");
        Tests.expect(!isValid("HASH-SLH-DSA", pair, letters, signature), "another form");
        Tests.expect(isValid("SLH-DSA", pair, PLAIN.withContext(new byte[255]),
                signed("SLH-DSA", pair.getPrivate(), PLAIN.withContext(new byte[255]))), "255 bytes");
        SlhSignatureSpec longer = PLAIN.withContext(new byte[256]);
        Tests.refuses(2, "ContextTooLong", () -> signed("SLH-DSA", pair.getPrivate(), longer));
        Tests.expect(!isValid("SLH-DSA", pair, longer, signature), "a context of 256 bytes");
        byte[] given = "letters".getBytes();
        SlhSignatureSpec copied = PLAIN.withContext(given);
        given[0] = 'L';
        Tests.expect(isValid("SLH-DSA", pair, copied, signature), "the caller's array");
    }

    static void randomizers() throws Exception {
        KeyPair pair = KeysTests.pair(SlhSet.SHA2_128F);
        byte[] one = signed("SLH-DSA", pair.getPrivate(), PLAIN);
        byte[] other = signed("SLH-DSA", pair.getPrivate(), PLAIN);
        Tests.expect(!Arrays.equals(one, other), "equal signatures");
        Tests.expect(isValid("SLH-DSA", pair, PLAIN, one) && isValid("SLH-DSA", pair, PLAIN, other), "invalid");
        Tests.same(signed("SLH-DSA", pair.getPrivate(), PLAIN.deterministic()),
                signed("SLH-DSA", pair.getPrivate(), PLAIN.deterministic().once().verify()), "deterministic");
    }

    static void preHashForms() throws Exception {
        for (SlhSet set : new SlhSet[] {SlhSet.SHA2_128F, SlhSet.SHA2_192F}) {
            KeyPair pair = KeysTests.pair(set);
            String name = set.algorithm() + "-WITH-" + (set == SlhSet.SHA2_128F ? "SHA256" : "SHA512");
            byte[] signature = signed("HASH-SLH-DSA", pair.getPrivate(), PLAIN);
            Tests.expect(isValid(name, pair, PLAIN, signature), name);
            Tests.expect(!isValid("SLH-DSA", pair, PLAIN, signature), "the pure form");
            Tests.expect(isValid("HASH-SLH-DSA", pair, PLAIN.withFunction(set.function()), signature), "by its name");
            Tests.expect(!isValid(name, pair, PLAIN.withFunction(SlhFunction.SHA_384), signature), "another function");
        }
        Class<InvalidAlgorithmParameterException> refused = InvalidAlgorithmParameterException.class;
        KeyPair pair = KeysTests.pair(SlhSet.SHA2_128F);
        Tests.throwsA(refused,
                () -> signed("SLH-DSA", pair.getPrivate(), PLAIN.withFunction(SlhFunction.SHA_256)));
        Tests.throwsA(NoSuchAlgorithmException.class,
                () -> Signature.getInstance("SLH-DSA-SHA2-128F-WITH-SHA512", Tests.PROVIDER));
    }

    /** Bytes, pieces and buffers of both kinds, of any size, give one message. */
    static void pieces() throws Exception {
        byte[] message = new byte[100_000];
        for (int at = 0; at < message.length; at++) {
            message[at] = (byte) (at * 7 + at / 256);
        }
        KeyPair pair = KeysTests.pair(SlhSet.SHA2_128F);
        for (String algorithm : new String[] {"SLH-DSA-SHA2-128F", "HASH-SLH-DSA"}) {
            Signature signing = Signature.getInstance(algorithm, Tests.PROVIDER);
            signing.initSign(pair.getPrivate());
            signing.update(message);
            byte[] signature = signing.sign();
            Signature verifying = Signature.getInstance(algorithm, Tests.PROVIDER);
            verifying.initVerify(pair.getPublic());
            for (int turn = 0; turn < 2; turn++) {
                update(verifying, message);
                Tests.expect(verifying.verify(signature), algorithm + " in pieces, turn " + turn);
            }
            verifying.update(message, 0, message.length - 1);
            Tests.expect(!verifying.verify(signature), "a shorter message");
        }
    }

    private static void update(Signature verifying, byte[] message) throws SignatureException {
        verifying.update(message[0]);
        verifying.update(message, 1, 1022);
        verifying.update(message, 1023, 0);
        verifying.update(ByteBuffer.wrap(message, 1023, 40_000));
        ByteBuffer direct = ByteBuffer.allocateDirect(message.length);
        direct.put(message, 41_023, message.length - 41_023).flip();
        verifying.update(direct);
        Tests.expect(!direct.hasRemaining(), "the buffer was not read");
    }

    /** Bytes of any other length are no valid signature, and none is refused. */
    static void otherLengthsAreInvalid() throws Exception {
        KeyPair pair = KeysTests.pair(SlhSet.SHA2_128F);
        byte[] signature = signed("SLH-DSA", pair.getPrivate(), PLAIN);
        for (int length : new int[] {0, 1, signature.length - 1, signature.length + 1, 49_856}) {
            Tests.expect(!isValid("SLH-DSA", pair, PLAIN, Arrays.copyOf(signature, length)), "of length " + length);
        }
        for (int at : new int[] {0, 16, 8_000, signature.length - 1}) {
            byte[] other = signature.clone();
            other[at] ^= (byte) 0x80;
            Tests.expect(!isValid("SLH-DSA", pair, PLAIN, other), "another bit at " + at);
        }
    }

    static void wrongCalls() throws Exception {
        KeyPair pair = KeysTests.pair(SlhSet.SHA2_128F);
        Signature one = Signature.getInstance("SLH-DSA-SHA2-128S", Tests.PROVIDER);
        Tests.throwsA(InvalidKeyException.class, () -> one.initSign(pair.getPrivate()));
        Tests.throwsA(InvalidKeyException.class, () -> one.initVerify(pair.getPublic()));
        Tests.throwsA(InvalidKeyException.class, () -> one.initSign(null));
        Tests.throwsA(SignatureException.class, () -> one.update((byte) 0));
        Signature signing = Signature.getInstance("SLH-DSA", Tests.PROVIDER);
        signing.initSign(pair.getPrivate());
        Class<InvalidAlgorithmParameterException> refused = InvalidAlgorithmParameterException.class;
        Tests.throwsA(refused, () -> signing.setParameter(new ECGenParameterSpec("secp256r1")));
        signing.update(MESSAGE);
        Tests.throwsA(refused, () -> signing.setParameter(PLAIN));
        Tests.same(signing.sign().length, 17088, "the length");
        signing.setParameter(null);
        Tests.same(signing.getParameters(), null, "parameters");
    }

    /** An inconsistent key signs without a check; with verify() that is a fault, and there is no signature. */
    static void faultsAreTold() throws Exception {
        KeyPair pair = KeysTests.pair(SlhSet.SHA2_128F);
        byte[] der = pair.getPrivate().getEncoded();
        der[der.length - 1] ^= 1;
        PrivateKey wrong = KeysTests.factory().generatePrivate(new PKCS8EncodedKeySpec(der));
        Tests.same(signed("SLH-DSA", wrong, PLAIN).length, 17088, "its length");
        Tests.refuses(38, "Fault", () -> signed("SLH-DSA", wrong, PLAIN.verify()));
        Tests.refuses(38, "Fault", () -> signed("HASH-SLH-DSA", wrong, PLAIN.verify().once()));
    }

    /** Which of the words asks for one computation: of several, the last one does. */
    @SuppressWarnings("deprecation")
    static void computations() {
        Tests.expect(!PLAIN.isOnce() && !PLAIN.verify().deterministic().isOnce(), "the default");
        SlhSignatureSpec once = PLAIN.once();
        Tests.expect(once.isOnce() && once.verify().deterministic().withContext(new byte[1]).isOnce(), "once");
        Tests.expect(PLAIN.verified().isVerified() && PLAIN.verify().isVerified(), "verified");
        Tests.expect(!PLAIN.twice().isOnce() && !once.twice().isOnce() && PLAIN.twice().once().isOnce(), "twice");
    }

    /** Many threads sign with one key at once. */
    static void threads() throws Exception {
        KeyPair pair = KeysTests.pair(SlhSet.SHA2_128F);
        byte[] wanted = signed("SLH-DSA", pair.getPrivate(), PLAIN.deterministic());
        var results = IntStream.range(0, 16).parallel().mapToObj(it -> {
            try {
                return Arrays.equals(signed("SLH-DSA", pair.getPrivate(), PLAIN.deterministic()), wanted);
            } catch (Exception fault) {
                throw new AssertionError(fault);
            }
        }).toList();
        Tests.expect(results.size() == 16 && !results.contains(false), "another signature");
    }
}
