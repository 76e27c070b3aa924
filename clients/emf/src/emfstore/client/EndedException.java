package emfstore.client;

import java.io.IOException;
import java.io.UncheckedIOException;
import java.util.regex.Matcher;
import java.util.regex.Pattern;

/**
 * The program has ended, or was ended as a call was cut off. What was answered is kept. What the last call sent is kept whole or not at all, and
 * {@code show}, {@code changes} or {@code log} of a new {@link Store} tell which.
 */
public class EndedException extends UncheckedIOException {
    private static final long serialVersionUID = 1;

    /** The status where the program is told to end and its own isn't known. */
    static final int CUT_OFF = -1;
    private static final int DISK_FAULT = 5;
    private static final int DAMAGED = 6;
    private static final Pattern DAMAGE = Pattern.compile("damaged at (\\d+)");
    /** A status above this one stands for a signal. */
    private static final int SIGNALS = 128;

    private final int status;
    private final String words;

    EndedException(int status, String words, String sentence, Throwable cause) {
        super(sentence, cause instanceof IOException fault ? fault : new IOException(sentence, cause));
        this.status = status;
        this.words = words;
    }

    /** What tells of a program that has ended by itself, with what it wrote to standard error. */
    static EndedException of(int status, String words, boolean isLocked) {
        if (status == DISK_FAULT) {
            return isLocked ? new InUseException(status, words) : new DiskFaultException(status, words);
        }
        Matcher damage = DAMAGE.matcher(words);
        if (status == DAMAGED && damage.find()) {
            return new DamagedException(status, words, Long.parseLong(damage.group(1)));
        }
        String said = words.isEmpty() ? "" : ", '" + words + "'";
        return new EndedException(status, words, "emfstore ended with status " + status + said + ": " + meaning(status), null);
    }

    /** What a later call is told of the same end. */
    static EndedException again(EndedException first) {
        return new EndedException(first.status, first.words, "the store is closed: " + first.getMessage(), first);
    }

    /** The status of the program, as the page of its language lists them, or -1 where a call was cut off. */
    public int status() {
        return status;
    }

    /** What the program wrote to standard error. */
    public String words() {
        return words;
    }

    private static String meaning(int status) {
        return switch (status) {
            case 0, 1 -> "its input was at an end";
            case 2 -> "it takes no such arguments";
            case 3 -> "its input can't be read";
            case 4 -> "a reply couldn't be printed; its command is done";
            case 7 -> "there is no memory for it; all that was answered is kept";
            case 8 -> "what was sent breaks the rules of lines";
            default -> status > SIGNALS ? "a signal ended it; all that was answered is kept" : "no status of emfstore";
        };
    }
}
