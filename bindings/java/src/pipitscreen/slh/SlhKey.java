package pipitscreen.slh;

import java.security.AsymmetricKey;
import java.security.spec.AlgorithmParameterSpec;

/** What private and public keys share: their set, with the name and the parameters that Java asks for. */
abstract sealed class SlhKey implements AsymmetricKey permits SlhPrivateKey, SlhPublicKey {
    private static final long serialVersionUID = 1L;

    final transient SlhSet set;

    SlhKey(SlhSet set) {
        this.set = set;
    }

    /**
     * The set of the key.
     *
     * @return the set
     */
    public SlhSet set() {
        return set;
    }

    /** A copy of the bytes for one call. */
    abstract Memory taken();

    /** Returns the name of the set, as "SLH-DSA-SHA2-128F". */
    @Override
    public String getAlgorithm() {
        return set.algorithm();
    }

    @Override
    public AlgorithmParameterSpec getParams() {
        return set.spec();
    }
}
