/** SLH-DSA (FIPS 205) with SHA-2 as a provider of the Java Cryptography Architecture, over the library libslh. */
module pipitscreen.slh {
    exports pipitscreen.slh;

    provides java.security.Provider with pipitscreen.slh.SlhProvider;
}
