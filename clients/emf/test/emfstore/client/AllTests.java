package emfstore.client;

import java.io.IOException;
import java.nio.file.Files;
import java.nio.file.Path;
import java.util.List;

/** Runs the tests, or those of some names. */
public final class AllTests {
    private static final List<String> ALL = List.of("imports", "clients", "life", "calls", "team");

    /** The seed of a team's edits where none is given. */
    private static final long SEED = 7;

    private AllTests() {
    }

    /**
     * The words: the built program, an empty folder, the folder of the tests, how many random edits a team makes, and the tests to run, or none for
     * all.
     */
    public static void main(String[] words) throws IOException {
        Path program = Path.of(words[0]).toAbsolutePath();
        List<String> wanted = words.length > 4 ? List.of(words).subList(4, words.length) : ALL;
        for (String name : wanted) {
            Path folder = Files.createDirectory(Path.of(words[1]).resolve(name));
            Path tests = Path.of(words[2]);
            switch (name) {
                case "imports" -> new ImportTest(program, folder, tests).run();
                case "clients" -> new ClientsTest(program, folder, tests).run();
                case "life" -> new LifeTest(program, folder, tests).run();
                case "calls" -> new CallsTest(program, folder, tests).run();
                case "team" -> {
                    String[] numbers = words[3].split(":");
                    new TeamTest(program, folder, tests).run(Integer.parseInt(numbers[0]), numbers.length > 1 ? Long.parseLong(numbers[1]) : SEED);
                }
                default -> throw new IllegalArgumentException("no test " + name);
            }
        }
    }
}
