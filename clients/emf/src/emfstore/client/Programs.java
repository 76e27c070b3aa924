package emfstore.client;

import java.io.File;
import java.io.IOException;
import java.nio.file.Files;
import java.nio.file.Path;
import java.util.Arrays;

/** Where the program is. */
final class Programs {
    private static final String NAME = "emfstore";
    private static final String VARIABLE = "EMFSTORE";

    private Programs() {
    }

    /**
     * The program where no path is given: what the property `emfstore` or the variable EMFSTORE names, or else the first `emfstore` of PATH.
     *
     * @throws IOException where there is none
     */
    static Path find() throws IOException {
        String named = System.getProperty(NAME, System.getenv(VARIABLE));
        if (named != null) {
            return Path.of(named);
        }
        String folders = System.getenv("PATH");
        return Arrays.stream(folders == null ? new String[0] : folders.split(File.pathSeparator)).map(it -> Path.of(it.isEmpty() ? "." : it, NAME))
                .filter(it -> Files.isRegularFile(it) && Files.isExecutable(it)).findFirst()
                .orElseThrow(() -> new IOException("there is no program " + NAME + ": give its path, or set the variable " + VARIABLE
                        + " to it, or add its folder to PATH"));
    }
}
