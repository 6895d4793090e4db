package pipitscreen.slh;

import java.io.BufferedReader;
import java.io.InputStreamReader;
import java.security.GeneralSecurityException;
import java.security.KeyFactory;
import java.security.spec.PKCS8EncodedKeySpec;
import java.security.spec.X509EncodedKeySpec;
import java.util.HexFormat;

/** A program for `check_key_forms` of tests/key_forms.py, which says what it does. */
final class KeyForms {
    private static final SlhProvider PROVIDER = new SlhProvider();

    private KeyForms() {}

    public static void main(String[] words) throws Exception {
        BufferedReader lines = new BufferedReader(new InputStreamReader(System.in));
        for (String line = lines.readLine(); line != null; line = lines.readLine()) {
            int digits = line.lastIndexOf(' ') + 1;
            try {
                SlhKey key = read(line.substring(0, digits - 1), HexFormat.of().parseHex(line.substring(digits)));
                byte[] again = line.contains(" der ") ? key.getEncoded() : pem(key);
                System.out.println(key.set().number() + " " + HexFormat.of().formatHex(again));
            } catch (GeneralSecurityException fault) {
                System.out.println(((Refusal) fault.getCause()).number());
            }
        }
    }

    private static SlhKey read(String what, byte[] file) throws GeneralSecurityException {
        KeyFactory keys = KeyFactory.getInstance("SLH-DSA", PROVIDER);
        return switch (what) {
            case "public der" -> (SlhKey) keys.generatePublic(new X509EncodedKeySpec(file));
            case "secret der" -> (SlhKey) keys.generatePrivate(new PKCS8EncodedKeySpec(file));
            case "public pem" -> SlhPem.publicKey(file);
            default -> SlhPem.privateKey(file);
        };
    }

    private static byte[] pem(SlhKey key) {
        return key instanceof SlhPrivateKey secret ? SlhPem.encode(secret) : SlhPem.encode((SlhPublicKey) key);
    }
}
