package pipitscreen.slh;

import java.security.InvalidAlgorithmParameterException;
import java.security.InvalidParameterException;
import java.security.KeyPair;
import java.security.KeyPairGeneratorSpi;
import java.security.SecureRandom;
import java.security.spec.AlgorithmParameterSpec;

/** Makes keys of one set. */
final class SlhKeyPairGenerator extends KeyPairGeneratorSpi {
    private final SlhSet fixed;
    private SlhSet set;
    private SecureRandom random;

    /** For keys of one set, or, if that is null, of the one that initialize names, which is 128F at first. */
    SlhKeyPairGenerator(SlhSet fixed) {
        this.fixed = fixed;
        this.set = fixed == null ? SlhSet.SHA2_128F : fixed;
    }

    @Override
    public void initialize(int size, SecureRandom source) {
        if (size != -1) {
            throw new InvalidParameterException("a set is named by its parameters, and not by a size");
        }
        random = source;
    }

    @Override
    public void initialize(AlgorithmParameterSpec spec, SecureRandom source) throws InvalidAlgorithmParameterException {
        SlhSet named = SlhSet.of(spec).orElseThrow(() -> new InvalidAlgorithmParameterException(
                "a NamedParameterSpec with the name of a set is needed, as SLH-DSA-SHA2-128F"));
        if (fixed != null && named != fixed) {
            throw new InvalidAlgorithmParameterException("this makes keys of " + fixed.algorithm());
        }
        set = named;
        random = source;
    }

    @Override
    public KeyPair generateKeyPair() {
        SlhPrivateKey key = SlhPrivateKey.generate(set, random);
        return new KeyPair(key.publicKey(), key);
    }
}
