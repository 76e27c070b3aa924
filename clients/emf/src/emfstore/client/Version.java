package emfstore.client;

import java.util.ArrayDeque;
import java.util.ArrayList;
import java.util.Arrays;
import java.util.Deque;
import java.util.List;

/**
 * A line of the log.
 *
 * @param parent the version that it was made of, or -1 of version 0
 * @param merged the versions that were merged into it, in their order
 * @param operations how many operations it has
 * @param author that of a signed version, or null
 * @param moment that of a signed version, a number of 64 bits without a sign, or null
 */
public record Version(int number, String branch, int parent, List<Integer> merged, int operations, List<String> tags, String author, Long moment,
        String message) {
    /** A number that no version has. */
    static final int NONE = -1;
    private static final int WORDS = 9;

    static Version read(String line) {
        String[] words = line.split(" ", WORDS);
        List<Integer> merged = items(words[3]).stream().map(Integer::valueOf).toList();
        return new Version(Integer.parseInt(words[0]), words[1], words[2].equals("-") ? NONE : Integer.parseInt(words[2]), merged,
                Integer.parseInt(words[4]), items(words[5]), words[6].equals("-") ? null : words[6],
                words[7].equals("-") ? null : Long.valueOf(Long.parseUnsignedLong(words[7])), (String) Json.read(words[8]));
    }

    /** The versions on the way to one of them, after another one on that way. */
    static List<Version> between(List<Version> log, int after, int last) {
        Deque<Version> way = new ArrayDeque<>();
        for (int at = last; at != after && at != NONE; at = log.get(at).parent()) {
            way.push(log.get(at));
        }
        return new ArrayList<>(way);
    }

    private static List<String> items(String word) {
        return word.equals("-") ? List.of() : Arrays.asList(word.split(","));
    }
}
