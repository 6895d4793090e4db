package pipitscreen.slh;

import java.security.InvalidKeyException;
import java.security.Key;
import java.security.KeyFactorySpi;
import java.security.PrivateKey;
import java.security.PublicKey;
import java.security.spec.EncodedKeySpec;
import java.security.spec.InvalidKeySpecException;
import java.security.spec.KeySpec;
import java.security.spec.PKCS8EncodedKeySpec;
import java.security.spec.X509EncodedKeySpec;
import java.util.Arrays;

/** Reads and writes keys as SubjectPublicKeyInfo and PKCS#8. */
final class SlhKeyFactory extends KeyFactorySpi {
    private final SlhSet fixed;

    /** For keys of one set, or of each if that is null. */
    SlhKeyFactory(SlhSet fixed) {
        this.fixed = fixed;
    }

    @Override
    protected PublicKey engineGeneratePublic(KeySpec spec) throws InvalidKeySpecException {
        if (!(spec instanceof X509EncodedKeySpec encoded)) {
            throw new InvalidKeySpecException("an X509EncodedKeySpec is needed");
        }
        try {
            return publicOf(encoded.getEncoded(), fixed);
        } catch (InvalidKeyException fault) {
            throw new InvalidKeySpecException(fault.getMessage(), fault.getCause());
        }
    }

    @Override
    protected PrivateKey engineGeneratePrivate(KeySpec spec) throws InvalidKeySpecException {
        if (!(spec instanceof PKCS8EncodedKeySpec encoded)) {
            throw new InvalidKeySpecException("a PKCS8EncodedKeySpec is needed");
        }
        byte[] der = encoded.getEncoded();
        try {
            return privateOf(der, fixed);
        } catch (InvalidKeyException fault) {
            throw new InvalidKeySpecException(fault.getMessage(), fault.getCause());
        } finally {
            // A PKCS8EncodedKeySpec gives a copy. A class over it may give an array that it still needs.
            if (encoded.getClass() == PKCS8EncodedKeySpec.class) {
                Arrays.fill(der, (byte) 0);
            }
        }
    }

    @Override
    protected <T extends KeySpec> T engineGetKeySpec(Key key, Class<T> wanted) throws InvalidKeySpecException {
        try {
            Key taken = translated(key, fixed);
            if (taken instanceof SlhPublicKey it && wanted.isAssignableFrom(X509EncodedKeySpec.class)) {
                return wanted.cast(new X509EncodedKeySpec(it.getEncoded(), it.getAlgorithm()));
            }
            if (taken instanceof SlhPrivateKey it && wanted.isAssignableFrom(PKCS8EncodedKeySpec.class)) {
                return wanted.cast(specOf(it));
            }
        } catch (InvalidKeyException fault) {
            throw new InvalidKeySpecException(fault.getMessage(), fault.getCause());
        } catch (IllegalStateException destroyed) {
            throw new InvalidKeySpecException(destroyed.getMessage(), destroyed);
        }
        throw new InvalidKeySpecException("this key has no " + wanted.getSimpleName());
    }

    private static EncodedKeySpec specOf(SlhPrivateKey key) {
        byte[] der = key.getEncoded();
        try {
            return new PKCS8EncodedKeySpec(der, key.getAlgorithm());
        } finally {
            Arrays.fill(der, (byte) 0);
        }
    }

    @Override
    protected Key engineTranslateKey(Key key) throws InvalidKeyException {
        return translated(key, fixed);
    }

    /**
     * Returns a key of this provider, which is the same key if it is one, and else is read from its encoding. That array
     * may be the other key's, and is left as it is.
     */
    static Key translated(Key key, SlhSet fixed) throws InvalidKeyException {
        if (key instanceof SlhPublicKey it) {
            checkSet(it.set(), fixed);
            return key;
        }
        if (key instanceof SlhPrivateKey it) {
            checkSet(it.set(), fixed);
            return key;
        }
        byte[] der = key == null ? null : key.getEncoded();
        if (der == null) {
            throw new InvalidKeyException("the key gives no bytes");
        }
        return key instanceof PrivateKey ? privateOf(der, fixed) : publicOf(der, fixed);
    }

    /** The public key of DER. */
    private static SlhPublicKey publicOf(byte[] der, SlhSet fixed) throws InvalidKeyException {
        SlhPublicKey key = Pkix.publicKey(der, false);
        checkSet(key.set(), fixed);
        return key;
    }

    /** The private key of DER. */
    private static SlhPrivateKey privateOf(byte[] der, SlhSet fixed) throws InvalidKeyException {
        SlhPrivateKey key = Pkix.privateKey(der, false);
        checkSet(key.set(), fixed);
        return key;
    }

    private static void checkSet(SlhSet set, SlhSet fixed) throws InvalidKeyException {
        if (fixed != null && set != fixed) {
            throw new InvalidKeyException("the key is of " + set.algorithm() + ", and not of " + fixed.algorithm());
        }
    }
}
