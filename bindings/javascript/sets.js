// libslh's numbers of parameter sets and of pre-hash functions.

// The parameter sets (FIPS 205, section 11, Table 2).
export const SLH_DSA_SHA2_128S = 1;
export const SLH_DSA_SHA2_128F = 2;
export const SLH_DSA_SHA2_192S = 3;
export const SLH_DSA_SHA2_192F = 4;
export const SLH_DSA_SHA2_256S = 5;
export const SLH_DSA_SHA2_256F = 6;

// The pre-hash functions (FIPS 205, section 10.2.2).
export const SLH_SHA2_224 = 1;
export const SLH_SHA2_256 = 2;
export const SLH_SHA2_384 = 3;
export const SLH_SHA2_512 = 4;
export const SLH_SHA2_512_224 = 5;
export const SLH_SHA2_512_256 = 6;

/** The names of the sets, each at its number. */
export const NAMES = [
    undefined, "SLH-DSA-SHA2-128s", "SLH-DSA-SHA2-128f", "SLH-DSA-SHA2-192s", "SLH-DSA-SHA2-192f", "SLH-DSA-SHA2-256s",
    "SLH-DSA-SHA2-256f",
];

/** The lengths of the functions' digests in bytes, each at the function's number. */
export const DIGEST_LENGTHS = [undefined, 28, 32, 48, 64, 28, 32];
