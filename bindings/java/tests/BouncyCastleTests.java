package pipitscreen.slh;

import java.security.KeyFactory;
import java.security.KeyPair;
import java.security.KeyPairGenerator;
import java.security.PrivateKey;
import java.security.Provider;
import java.security.PublicKey;
import java.security.Signature;
import java.security.spec.AlgorithmParameterSpec;
import java.security.spec.PKCS8EncodedKeySpec;
import java.security.spec.X509EncodedKeySpec;

/** Keys and signatures of Bouncy Castle 1.79 or later, and ours for it. */
final class BouncyCastleTests {
    private static final byte[] MESSAGE = "Dear reader,".getBytes();

    private BouncyCastleTests() {}

    /** Bouncy Castle's provider. Without one that has the six sets, the test is skipped. */
    private static Provider other() {
        try {
            Provider found = (Provider) Class.forName("org.bouncycastle.jce.provider.BouncyCastleProvider")
                    .getDeclaredConstructor().newInstance();
            if (found.getService("KeyFactory", "SLH-DSA-SHA2-128F") != null) {
                return found;
            }
            throw new Tests.Skipped(found.getInfo() + " has no SLH-DSA: 1.79 has");
        } catch (ReflectiveOperationException fault) {
            throw new Tests.Skipped("there is no bcprov.jar");
        }
    }

    private static byte[] signed(Provider by, String algorithm, PrivateKey key) throws Exception {
        Signature signing = Signature.getInstance(algorithm, by);
        signing.initSign(key);
        signing.update(MESSAGE);
        return signing.sign();
    }

    private static boolean isValid(Provider by, String algorithm, PublicKey key, byte[] signature) throws Exception {
        Signature verifying = Signature.getInstance(algorithm, by);
        verifying.initVerify(key);
        verifying.update(MESSAGE);
        return verifying.verify(signature);
    }

    /** Our keys are read by the other provider, which verifies what we sign, and signs what we verify. */
    static void itTakesOurs() throws Exception {
        Provider other = other();
        for (SlhSet set : SlhSet.values()) {
            KeyPair pair = KeysTests.pair(set);
            KeyFactory keys = KeyFactory.getInstance("SLH-DSA", other);
            PublicKey open = keys.generatePublic(new X509EncodedKeySpec(pair.getPublic().getEncoded()));
            PrivateKey secret = keys.generatePrivate(new PKCS8EncodedKeySpec(pair.getPrivate().getEncoded()));
            Tests.same(open.getEncoded(), pair.getPublic().getEncoded(), "the public key");
            Tests.same(open.getAlgorithm(), pair.getPublic().getAlgorithm(), "the name of the algorithm");
            byte[] signature = signed(Tests.PROVIDER, "SLH-DSA", pair.getPrivate());
            Tests.expect(isValid(other, "SLH-DSA", open, signature), set + ": our signature");
            byte[] theirs = signed(other, "SLH-DSA", secret);
            Tests.expect(isValid(Tests.PROVIDER, set.algorithm(), pair.getPublic(), theirs), set + ": its signature");
            Tests.expect(isValid(Tests.PROVIDER, "SLH-DSA", open, theirs), set + ": by its key");
        }
    }

    /** Its public keys are ours. Its private keys have the public one inside: the command of OpenSSL removes it. */
    static void weTakeIts() throws Exception {
        Provider other = other();
        Programs.needOpenSsl();
        for (SlhSet set : SlhSet.values()) {
            KeyPair pair = KeyPairGenerator.getInstance(set.algorithm(), other).generateKeyPair();
            KeyFactory keys = KeysTests.factory();
            SlhPublicKey open = (SlhPublicKey) keys.translateKey(pair.getPublic());
            Tests.same(open.set(), set, "the set");
            Tests.refuses(11, "NotAKeyFile", () -> keys.translateKey(pair.getPrivate()));
            byte[] der = Programs.openssl(pair.getPrivate().getEncoded(), "pkey", "-inform", "DER", "-outform", "DER");
            SlhPrivateKey key = (SlhPrivateKey) keys.generatePrivate(new PKCS8EncodedKeySpec(der));
            key.check();
            Tests.same(key.publicKey(), open, "the public key");
        }
    }

    /** Contexts and the pre-hash form mean the same in both. */
    static void contextsAndPreHash() throws Exception {
        Provider other = other();
        KeyPair pair = KeysTests.pair(SlhSet.SHA2_128F);
        byte[] context = "letters".getBytes();
        Signature signing = Signature.getInstance("SLH-DSA", Tests.PROVIDER);
        signing.initSign(pair.getPrivate());
        signing.setParameter(SlhSignatureSpec.DEFAULT.withContext(context));
        signing.update(MESSAGE);
        Signature verifying = Signature.getInstance("SLH-DSA", other);
        PublicKey open = KeyFactory.getInstance("SLH-DSA", other)
                .generatePublic(new X509EncodedKeySpec(pair.getPublic().getEncoded()));
        verifying.initVerify(open);
        Class<?> type = Class.forName("org.bouncycastle.jcajce.spec.ContextParameterSpec");
        verifying.setParameter((AlgorithmParameterSpec) type.getConstructor(byte[].class).newInstance((Object) context));
        verifying.update(MESSAGE);
        Tests.expect(verifying.verify(signing.sign()), "under a context");
        byte[] signature = signed(Tests.PROVIDER, "HASH-SLH-DSA", pair.getPrivate());
        Tests.expect(isValid(other, "HASH-SLH-DSA", open, signature), "the pre-hash form");
    }
}
