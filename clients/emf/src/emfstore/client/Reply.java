package emfstore.client;

import java.util.List;

/**
 * The reply to one command: its data lines, and the line after them.
 *
 * @param words those after `ok`, or after `no` the refusal's number, name and fields
 */
public record Reply(List<String> data, boolean isAccepted, List<String> words) {
    /** The word at an index, as a number. */
    int number(int index) {
        return Integer.parseInt(words.get(index));
    }

    /** The number of a refusal, or 0. */
    int refusal() {
        return isAccepted ? 0 : number(0);
    }
}
