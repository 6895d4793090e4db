package pipitscreen.slh;

import java.security.InvalidKeyException;
import java.security.KeyFactory;
import java.security.PrivateKey;
import java.security.PublicKey;
import java.security.SecureRandom;
import java.security.Signature;
import java.security.spec.PKCS8EncodedKeySpec;
import java.security.spec.X509EncodedKeySpec;
import java.util.Arrays;
import java.util.HashSet;
import java.util.Set;

/** Keys, signatures and verdicts of other implementations. */
final class VectorsTests {
    private VectorsTests() {}

    static void keysOfSeeds() throws Exception {
        for (SlhSet set : SlhSet.values()) {
            for (Vectors it : Vectors.of(set, "keygen")) {
                byte[] sk = it.bytes("sk");
                SlhPrivateKey key = SlhPrivateKey.keygen(set, it.bytes("skSeed"), it.bytes("skPrf"),
                        it.bytes("pkSeed"));
                Tests.expect(Arrays.equals(raw(key), sk), set + " gives another key");
                Tests.same(key.publicKey().toBytes(), it.bytes("pk"), "the public key of " + set);
                key.check();
                sk[0] ^= 1;
                Tests.throwsA(InvalidKeyException.class, () -> SlhPrivateKey.of(set, sk).check());
            }
        }
    }

    /** The key's bytes, behind the prefix of PKCS#8. */
    private static byte[] raw(SlhPrivateKey key) {
        byte[] der = key.getEncoded();
        return Arrays.copyOfRange(der, der.length - key.set().privateKeyLength(), der.length);
    }

    /** All tests of the sets that sign fast, and one of 128s. */
    static void signatures() throws Exception {
        Set<String> forms = new HashSet<>();
        for (SlhSet set : SlhSet.values()) {
            boolean isFast = set.name().endsWith("F");
            if (isFast || set == SlhSet.SHA2_128S) {
                for (Vectors it : Vectors.of(set, "sign").subList(0, isFast ? Vectors.of(set, "sign").size() : 1)) {
                    signs(it);
                    forms.add(it.members().get("form"));
                }
            }
        }
        Tests.same(forms.size(), 7, "forms");
    }

    private static void signs(Vectors it) throws Exception {
        KeyFactory keys = KeyFactory.getInstance(it.set().algorithm(), Tests.PROVIDER);
        PrivateKey key = keys.generatePrivate(new PKCS8EncodedKeySpec(der(true, it.set(), it.bytes("sk"))));
        byte[] random = it.bytes("random");
        for (boolean isOnce : new boolean[] {false, true}) {
            Signature signing = Signature.getInstance(it.isPure() ? "SLH-DSA" : "HASH-SLH-DSA", Tests.PROVIDER);
            signing.initSign(key, new Given(random));
            SlhSignatureSpec spec = isOnce ? it.spec().once().verify() : it.spec();
            signing.setParameter(random.length == 0 ? spec.deterministic() : spec);
            signing.update(it.bytes("message"));
            Tests.expect(Arrays.equals(signing.sign(), it.bytes("signature")), it.set() + ": another signature");
        }
    }

    /** A generator that gives these bytes. */
    private static final class Given extends SecureRandom {
        private static final long serialVersionUID = 1L;
        private final byte[] bytes;

        Given(byte[] bytes) {
            this.bytes = bytes;
        }

        @Override
        public void nextBytes(byte[] to) {
            System.arraycopy(bytes, 0, to, 0, to.length);
        }
    }

    static void verdicts() throws Exception {
        Set<String> seen = new HashSet<>();
        for (SlhSet set : SlhSet.values()) {
            KeyFactory keys = KeyFactory.getInstance(set.algorithm(), Tests.PROVIDER);
            for (Vectors it : Vectors.of(set, "verify")) {
                PublicKey key = keys.generatePublic(new X509EncodedKeySpec(der(false, set, it.bytes("pk"))));
                Signature verifying = Signature.getInstance(it.isPure() ? "SLH-DSA" : "HASH-SLH-DSA", Tests.PROVIDER);
                verifying.initVerify(key);
                verifying.setParameter(it.spec());
                verifying.update(it.bytes("message"));
                String valid = it.members().get("valid");
                Tests.same(String.valueOf(verifying.verify(it.bytes("signature"))), valid, set + " " + it.members());
                seen.add(set + valid);
            }
        }
        Tests.same(seen.size(), 12, "verdicts of each set");
    }

    static byte[] der(boolean isPrivate, SlhSet set, byte[] key) throws InvalidKeyException {
        return isPrivate ? SlhPrivateKey.of(set, key).getEncoded() : SlhPublicKey.of(set, key).getEncoded();
    }
}
