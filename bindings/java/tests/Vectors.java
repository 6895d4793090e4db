package pipitscreen.slh;

import java.io.IOException;
import java.nio.file.Files;
import java.nio.file.Path;
import java.util.ArrayList;
import java.util.HashMap;
import java.util.HexFormat;
import java.util.List;
import java.util.Map;
import java.util.regex.Matcher;
import java.util.regex.Pattern;

/** A test of a vector file (docs/FORMATS.md): what another implementation made or judged. */
record Vectors(SlhSet set, Map<String, String> members) {
    private static final Pattern MEMBER = Pattern.compile("\"(\\w+)\":(?:\"([^\"]*)\"|(true|false))");
    private static final Path FOLDER = Path.of(System.getProperty("repository"), "tests", "vectors");

    /** The tests of a set, in the forms that the provider has. */
    static List<Vectors> of(SlhSet set, String kind) throws IOException {
        Path path = FOLDER.resolve(set.algorithm().toLowerCase() + ".json");
        List<Vectors> found = new ArrayList<>();
        for (String line : Files.readAllLines(path)) {
            Map<String, String> members = members(line);
            if (kind.equals(members.get("kind")) && !"internal".equals(members.get("form"))) {
                found.add(new Vectors(set, members));
            }
        }
        Tests.expect(!found.isEmpty(), "no tests of " + kind + " in " + path);
        return found;
    }

    private static Map<String, String> members(String line) {
        Map<String, String> found = new HashMap<>();
        Matcher matcher = MEMBER.matcher(line);
        while (matcher.find()) {
            found.put(matcher.group(1), matcher.group(matcher.group(2) == null ? 3 : 2));
        }
        return found;
    }

    byte[] bytes(String member) {
        return HexFormat.of().parseHex(members.get(member));
    }

    boolean isPure() {
        return members.get("form").equals("pure");
    }

    /** The pre-hash function, as SHA2-512/224. */
    SlhFunction function() {
        return SlhFunction.valueOf("SHA_" + members.get("form").substring("SHA2-".length()).replace('/', '_'));
    }

    SlhSignatureSpec spec() {
        SlhSignatureSpec spec = SlhSignatureSpec.DEFAULT.withContext(bytes("context"));
        return isPure() ? spec : spec.withFunction(function());
    }
}
