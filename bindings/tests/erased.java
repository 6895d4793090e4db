package pipitscreen.slh;

import java.lang.foreign.ValueLayout;
import java.security.KeyPair;
import java.security.KeyPairGenerator;
import java.security.Signature;
import java.util.Arrays;

/** A program for `check_memory` of tests/packages.py, which says what it does. */
final class Erased {
    private static final SlhProvider PROVIDER = new SlhProvider();
    private static final byte[] MESSAGE = "letter".getBytes();

    private Erased() {}

    public static void main(String[] words) throws Exception {
        KeyPairGenerator generator = KeyPairGenerator.getInstance("SLH-DSA", PROVIDER);
        generator.initialize(SlhSet.SHA2_128F.spec());
        KeyPair pair = generator.generateKeyPair();
        try (SlhPrivateKey key = (SlhPrivateKey) pair.getPrivate()) {
            System.out.println(disguised(key));
            System.in.read();
            signs(key);
            key.check();
            writesAndReads(key);
        }
        System.out.println("erased");
        while (System.in.read() >= 0) {
            continue;
        }
    }

    /** The digits of each byte with 0x5a exclusive-or. */
    private static String disguised(SlhPrivateKey key) {
        StringBuilder made = new StringBuilder();
        for (long at = 0; at < key.segment().byteSize(); at++) {
            made.append(String.format("%02x", key.segment().get(ValueLayout.JAVA_BYTE, at) & 0xff ^ 0x5a));
        }
        return made.toString();
    }

    private static void signs(SlhPrivateKey key) throws Exception {
        SlhSignatureSpec plain = SlhSignatureSpec.DEFAULT;
        for (SlhSignatureSpec spec : new SlhSignatureSpec[] {plain, plain.deterministic(), plain.once().verify()}) {
            for (String form : new String[] {"SLH-DSA", "HASH-SLH-DSA"}) {
                Signature signing = Signature.getInstance(form, PROVIDER);
                signing.initSign(key);
                signing.setParameter(spec);
                signing.update(MESSAGE);
                byte[] signature = signing.sign();
                signing.initVerify(key.publicKey());
                signing.update(MESSAGE);
                if (!signing.verify(signature)) {
                    throw new AssertionError("it is not valid");
                }
            }
        }
    }

    /**
     * Writes the key in both forms, reads PEM, drops what was read, and overwrites what was written. DER is not read: a
     * PKCS8EncodedKeySpec has a copy that nobody can overwrite.
     */
    private static void writesAndReads(SlhPrivateKey key) throws Exception {
        byte[] pem = SlhPem.encode(key);
        try (SlhPrivateKey again = SlhPem.privateKey(pem)) {
            again.check();
        }
        Arrays.fill(pem, (byte) 0);
        byte[] der = key.getEncoded();
        Arrays.fill(der, (byte) 0);
    }
}
