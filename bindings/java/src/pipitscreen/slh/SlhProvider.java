package pipitscreen.slh;

import java.security.Provider;
import java.util.List;
import java.util.Map;
import java.util.function.Supplier;

/**
 * The provider "Pipitscreen": KeyPairGenerator, KeyFactory and Signature for the family "SLH-DSA" and for each set, as
 * "SLH-DSA-SHA2-128F"; Signature for the pre-hash form, "HASH-SLH-DSA" and as "SLH-DSA-SHA2-128F-WITH-SHA256".
 */
public final class SlhProvider extends Provider {
    private static final long serialVersionUID = 1L;
    private static final String FAMILY = "SLH-DSA";

    /** Loads libslh. If it can't be found, or its version does not fit, this throws a ProviderException. */
    public SlhProvider() {
        super("Pipitscreen", Library.version(), "SLH-DSA (FIPS 205) with SHA-2");
        Library.load();
        addKeys(FAMILY, null, List.of());
        addSignature(FAMILY, null, false, List.of());
        addSignature("HASH-" + FAMILY, null, true, List.of());
        for (SlhSet set : SlhSet.values()) {
            addSet(set);
        }
    }

    private void addSet(SlhSet set) {
        List<String> names = List.of(set.oid(), "OID." + set.oid());
        addKeys(set.algorithm(), set, names);
        addSignature(set.algorithm(), set, false, names);
        String suffix = "-WITH-" + set.function().algorithm().replace("-", "");
        addSignature(set.algorithm() + suffix, set, true, List.of(set.preHashOid(), "OID." + set.preHashOid()));
    }

    private void addKeys(String name, SlhSet set, List<String> names) {
        add("KeyPairGenerator", name, SlhKeyPairGenerator.class, names, () -> new SlhKeyPairGenerator(set));
        add("KeyFactory", name, SlhKeyFactory.class, names, () -> new SlhKeyFactory(set));
    }

    private void addSignature(String name, SlhSet set, boolean isPreHash, List<String> names) {
        add("Signature", name, SlhSignature.class, names, () -> new SlhSignature(set, isPreHash));
    }

    private void add(String type, String name, Class<?> of, List<String> names, Supplier<Object> make) {
        putService(new Made(this, type, name, of, names, make));
    }

    /** A service whose objects are made by a constructor with words, which Provider can't call. */
    private static final class Made extends Service {
        /** Other providers' keys are taken by their encoding. */
        private static final Map<String, String> KEYS = Map.of("SupportedKeyFormats", "PKCS#8|X.509");

        private final Supplier<Object> make;

        Made(Provider provider, String type, String name, Class<?> of, List<String> names, Supplier<Object> make) {
            super(provider, type, name, of.getName(), names, type.equals("Signature") ? KEYS : Map.of());
            this.make = make;
        }

        @Override
        public Object newInstance(Object parameter) {
            return make.get();
        }
    }
}
