package pipitscreen.slh;

import java.io.IOException;
import java.io.OutputStream;
import java.nio.charset.StandardCharsets;
import java.util.ArrayList;
import java.util.List;

/** Runs of `openssl`. */
final class Programs {
    private static final String OPENSSL = System.getProperty("openssl", "openssl");

    private Programs() {}

    /** Runs openssl with input, expects status 0, and returns its output. */
    static byte[] openssl(byte[] input, String... words) throws IOException, InterruptedException {
        List<String> command = new ArrayList<>(List.of(OPENSSL));
        command.addAll(List.of(words));
        Process run = new ProcessBuilder(command).redirectError(ProcessBuilder.Redirect.INHERIT).start();
        try (OutputStream to = run.getOutputStream()) {
            to.write(input);
        }
        byte[] output = run.getInputStream().readAllBytes();
        Tests.same(run.waitFor(), 0, "the status of " + command);
        return output;
    }

    /** Skips the test unless openssl has the six sets. */
    static void needOpenSsl() throws InterruptedException {
        String said;
        try {
            said = new String(openssl(new byte[0], "list", "-signature-algorithms"), StandardCharsets.UTF_8);
        } catch (IOException fault) {
            said = "";
        }
        if (!said.contains("SLH-DSA-SHA2-128f")) {
            throw new Tests.Skipped("there is no OpenSSL 3.5");
        }
    }
}
