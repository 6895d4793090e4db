package pipitscreen.slh;

import java.security.spec.AlgorithmParameterSpec;

/**
 * How a signature is made, for `Signature.setParameter`. Each method returns another object. Verifying reads the
 * context and the function alone.
 */
public final class SlhSignatureSpec implements AlgorithmParameterSpec {
    /** The empty context, a fresh randomizer, two computations, and the pre-hash function that FIPS 205 names. */
    public static final SlhSignatureSpec DEFAULT = new SlhSignatureSpec(new byte[0], null, false, false, false);

    private final byte[] context;
    private final SlhFunction function;
    private final boolean isDeterministic;
    private final boolean isOnce;
    private final boolean isVerified;

    private SlhSignatureSpec(byte[] context, SlhFunction function, boolean isDeterministic, boolean isOnce,
            boolean isVerified) {
        this.context = context;
        this.function = function;
        this.isDeterministic = isDeterministic;
        this.isOnce = isOnce;
        this.isVerified = isVerified;
    }

    /**
     * Binds signatures to a use. Signing refuses a context of over 255 bytes, and under one no signature is valid.
     *
     * @param bytes the context, which is copied
     * @return these parameters with this context
     */
    public SlhSignatureSpec withContext(byte[] bytes) {
        return new SlhSignatureSpec(bytes.clone(), function, isDeterministic, isOnce, isVerified);
    }

    /**
     * Chooses the function of the pre-hash form.
     *
     * @param other the function
     * @return these parameters with this function
     */
    public SlhSignatureSpec withFunction(SlhFunction other) {
        return new SlhSignatureSpec(context, other, isDeterministic, isOnce, isVerified);
    }

    /**
     * Signs without a randomizer. That is more exposed to faults of the hardware.
     *
     * @return these parameters, deterministic
     */
    public SlhSignatureSpec deterministic() {
        return new SlhSignatureSpec(context, function, true, isOnce, isVerified);
    }

    /**
     * Signs one time, which takes half the time. Otherwise a signature is computed two times and compared. If both
     * differ, nothing is signed: a fault of the hardware can else give a signature from which others are forged.
     *
     * @return these parameters, with one computation
     */
    public SlhSignatureSpec once() {
        return new SlhSignatureSpec(context, function, isDeterministic, true, isVerified);
    }

    /**
     * Signs two times, also after once.
     *
     * @return these parameters, with two computations
     * @deprecated two computations are the default; version 2.0 or later may remove this method
     */
    @Deprecated
    public SlhSignatureSpec twice() {
        return new SlhSignatureSpec(context, function, isDeterministic, false, isVerified);
    }

    /**
     * Verifies each signature before it is returned. If it is not valid, nothing is signed.
     *
     * @return these parameters, with verifying
     */
    public SlhSignatureSpec verify() {
        return new SlhSignatureSpec(context, function, isDeterministic, isOnce, true);
    }

    /**
     * Does what verify does.
     *
     * @return these parameters, with verifying
     * @deprecated use verify: version 2.0 or later may remove this name
     */
    @Deprecated
    public SlhSignatureSpec verified() {
        return verify();
    }

    /** The context, which is not copied. */
    byte[] context() {
        return context;
    }

    /** The function, or null for that of the set. */
    SlhFunction function() {
        return function;
    }

    boolean isDeterministic() {
        return isDeterministic;
    }

    boolean isOnce() {
        return isOnce;
    }

    boolean isVerified() {
        return isVerified;
    }
}
