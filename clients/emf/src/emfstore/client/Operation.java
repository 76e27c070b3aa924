package emfstore.client;

import java.util.ArrayList;
import java.util.List;

/**
 * What one edit recorded, or all edits of a composite.
 *
 * @param number from 1, or 0 of a composite that is still open
 * @param kind {@code create}, {@code delete}, {@code attribute}, {@code many-attribute}, {@code reference}, {@code move} or {@code composite}
 * @param name that of a composite, or null
 */
public record Operation(int number, String kind, String name, List<Step> steps) {
    private static final String COMPOSITE = "composite";

    /** The operations that the lines of {@code changes} or {@code package} say. An open composite is the last one. */
    static List<Operation> read(List<String> lines) {
        List<Operation> found = new ArrayList<>();
        for (String line : lines) {
            if (line.startsWith(" ")) {
                found.get(found.size() - 1).steps.add(Step.read(line));
            } else if (line.startsWith("op ")) {
                String[] words = line.split(" ");
                found.add(new Operation(Integer.parseInt(words[1]), words[2], words.length > 3 ? words[3] : null, new ArrayList<>()));
            } else if (line.startsWith("open ")) {
                found.add(new Operation(0, COMPOSITE, line.substring("open ".length()), new ArrayList<>()));
            }
        }
        return found;
    }

    /** Whether it is a composite that is still open. */
    public boolean isOpen() {
        return number == 0;
    }

    /** The same operation under another number. */
    Operation numbered(int other) {
        return new Operation(other, kind, name, steps);
    }

    /** The operation that takes it back: its steps taken back, the last first. */
    Operation inverse() {
        List<Step> back = new ArrayList<>();
        for (int i = steps.size() - 1; i >= 0; i--) {
            back.add(steps.get(i).inverse());
        }
        String other = kind.equals("create") ? "delete" : kind.equals("delete") ? "create" : kind;
        return new Operation(number, other, name, back);
    }
}
