/*
 * A sentence for each result of c/include/slh.h: exports.c and portable C share it. Nothing here is proved.
 */
const char *slh_refusal_text(uint32_t result) {
    switch (result) {
    case SLH_DONE:
        return "done: the output is written, or the key or signature is valid";
    case SLH_CONTEXT_TOO_LONG:
        return "the context has more than 255 bytes";
    case SLH_BAD_LENGTH:
        return "the key does not have the length of the parameter set's keys";
    case SLH_BAD_CUTTING:
        return "a number of levels is above 8 or above the height of the trees";
    case SLH_NO_SUCH_SET:
        return "the number is not a parameter set's";
    case SLH_NO_SUCH_FUNCTION:
        return "the number is not a pre-hash function's";
    case SLH_BAD_SEED_LENGTH:
        return "a seed does not have n bytes";
    case SLH_NOT_A_KEY_FILE:
        return "the first line is not that of a key file, or a key in DER or PEM has another form";
    case SLH_UNKNOWN_SET:
        return "the second line of the key file is not the name of a parameter set";
    case SLH_BAD_HEX:
        return "the third line of the key file has a byte that is no hexadecimal digit";
    case SLH_BAD_KEY_LENGTH:
        return "the third line of the key file has too few or too many digits for a key of the set";
    case SLH_TRAILING_BYTES:
        return "bytes follow the third line of the key file";
    case SLH_BAD_DIGEST_LENGTH:
        return "the digest does not have the length of its hash function's digests";
    case SLH_BAD_RANDOMIZER_LENGTH:
        return "the randomizer has neither 0 nor n bytes";
    case SLH_BAD_OUTPUT_LENGTH:
        return "an output does not have the length of the bytes that are written";
    case SLH_NO_SUCH_REFUSAL:
        return "the number is not a refusal's";
    case SLH_BAD_ANSWERS_LENGTH:
        return "the answers do not have the length of the answers of all jobs";
    case SLH_ANSWERS_DISAGREE:
        return "the answers of jobs do not fit together: nothing was signed";
    case SLH_NO_SUCH_JOB:
        return "the number is not a job's";
    case SLH_BAD_START_LENGTH:
        return "the start does not have the length of the parameter set's starts";
    case SLH_BAD_START:
        return "the start does not have its tag under this key";
    case SLH_INVALID:
        return "the key or the signature is not valid";
    case SLH_NO_MEMORY:
        return "the call got no memory: nothing was written";
    case SLH_FAULT:
        return "two computations of one signature differ, so memory or the processor failed: nothing was signed";
    case SLH_OLD_PROCESSOR:
        return "the processor, or the one that a virtual machine shows, is below x86-64-v2";
    case SLH_SELF_TEST_FAILED:
        return "an answer of the self-test is not the known one: do not use this set on this machine";
    case SLH_NO_SUCH_KIND:
        return "the number is not a kind of keys";
    default:
        return "this number is no result of the library";
    }
}
