package pipitscreen.slh;

import java.io.ByteArrayInputStream;
import java.io.ByteArrayOutputStream;
import java.io.IOException;
import java.nio.file.Files;
import java.nio.file.Path;
import java.security.KeyStore;
import java.security.UnrecoverableKeyException;
import java.security.cert.Certificate;
import java.security.cert.CertificateFactory;

/** Private keys in Java's stores of keys. */
final class KeyStoreTests {
    private static final char[] WORD = "secret".toCharArray();
    private static final char[] OTHER = "other".toCharArray();

    private KeyStoreTests() {}

    /** A certificate of a key, which OpenSSL signs by it. A store takes no private key without one. */
    private static Certificate certificate(SlhPrivateKey key) throws Exception {
        Path file = Files.write(Files.createTempDirectory("slh").resolve("key.pem"), SlhPem.encode(key));
        byte[] pem = Programs.openssl(new byte[0], "req", "-x509", "-key", file.toString(), "-subj", "/CN=key");
        Files.delete(file);
        return CertificateFactory.getInstance("X.509").generateCertificate(new ByteArrayInputStream(pem));
    }

    /** The bytes of a store that has a key under the name `key`. */
    private static byte[] stored(SlhPrivateKey key) throws Exception {
        KeyStore store = KeyStore.getInstance("PKCS12");
        store.load(null, WORD);
        store.setKeyEntry("key", key, WORD, new Certificate[] {certificate(key)});
        ByteArrayOutputStream out = new ByteArrayOutputStream();
        store.store(out, WORD);
        return out.toByteArray();
    }

    private static KeyStore loaded(byte[] store) throws Exception {
        KeyStore made = KeyStore.getInstance("PKCS12");
        made.load(new ByteArrayInputStream(store), WORD);
        return made;
    }

    static void aStoreGivesTheKeyBack() throws Exception {
        Programs.needOpenSsl();
        for (SlhSet set : new SlhSet[] {SlhSet.SHA2_128F, SlhSet.SHA2_192F, SlhSet.SHA2_256F}) {
            SlhPrivateKey key = (SlhPrivateKey) KeysTests.pair(set).getPrivate();
            byte[] encoded = key.getEncoded();
            byte[] store = stored(key);
            SlhPrivateKey found = (SlhPrivateKey) loaded(store).getKey("key", WORD);
            Tests.same(found, key, "the key");
            key.destroy();
            Tests.same(found.getEncoded(), encoded, "its bytes");
            Tests.same(loaded(store).getCertificate("key").getPublicKey(), found.publicKey(), "its public key");
            found.check();
        }
    }

    static void anotherWordGivesNoKey() throws Exception {
        Programs.needOpenSsl();
        byte[] store = stored((SlhPrivateKey) KeysTests.pair(SlhSet.SHA2_128F).getPrivate());
        Tests.throwsA(UnrecoverableKeyException.class, () -> loaded(store).getKey("key", OTHER));
        Tests.throwsA(IOException.class, () -> KeyStore.getInstance("PKCS12")
                .load(new ByteArrayInputStream(store), OTHER));
    }
}
