package emfstore.client;

import java.util.ArrayList;
import java.util.List;

/**
 * One thing that an operation changes, as {@code changes} and {@code package} print it. Values are JSON texts, and null stands for none. A rank is
 * the number by which an entry stands in its list: the lesser one comes first.
 */
public sealed interface Step {
    /** Where an element stands: in a containment of a parent, or at the root, where both are null. */
    record Place(String parent, String feature) {
        static final Place ROOT = new Place(null, null);

        static Place read(String word) {
            int slash = word.lastIndexOf('/');
            return word.equals("/") ? ROOT : new Place(word.substring(0, slash), word.substring(slash + 1));
        }

        /** The place as the program prints it. */
        @Override
        public String toString() {
            return parent == null ? "/" : parent + "/" + feature;
        }
    }

    /** An element is created. */
    record Created(String element, String className, Place place, String rank) implements Step {
        @Override
        public Step inverse() {
            return new Deleted(element, className, place, rank);
        }
    }

    /** An element is deleted. */
    record Deleted(String element, String className, Place place, String rank) implements Step {
        @Override
        public Step inverse() {
            return new Created(element, className, place, rank);
        }
    }

    /** An element is moved from one place to another. */
    record Moved(String element, Place from, String rankBefore, Place to, String rank) implements Step {
        @Override
        public Step inverse() {
            return new Moved(element, to, rank, from, rankBefore);
        }
    }

    /** An element gets another rank where it stands. */
    record Placed(String element, String before, String rank) implements Step {
        @Override
        public Step inverse() {
            return new Placed(element, rank, before);
        }
    }

    /** A single attribute changes. */
    record Put(String element, String feature, String before, String value) implements Step {
        @Override
        public Step inverse() {
            return new Put(element, feature, value, before);
        }
    }

    /** A many-valued attribute gets a value. */
    record Inserted(String element, String feature, int index, String value) implements Step {
        @Override
        public Step inverse() {
            return new Removed(element, feature, index, value);
        }
    }

    /** A many-valued attribute loses a value. */
    record Removed(String element, String feature, int index, String value) implements Step {
        @Override
        public Step inverse() {
            return new Inserted(element, feature, index, value);
        }
    }

    /** A value of a many-valued attribute comes to another index. */
    record Shifted(String element, String feature, int from, int to) implements Step {
        @Override
        public Step inverse() {
            return new Shifted(element, feature, to, from);
        }
    }

    /** A link is added, with its rank on either side; the far one is null where there is no opposite. */
    record Linked(String element, String feature, String rank, String target, String farRank) implements Step {
        @Override
        public Step inverse() {
            return new Unlinked(element, feature, rank, target, farRank);
        }
    }

    /** A link is removed. */
    record Unlinked(String element, String feature, String rank, String target, String farRank) implements Step {
        @Override
        public Step inverse() {
            return new Linked(element, feature, rank, target, farRank);
        }
    }

    /** An entry of a reference gets another rank. */
    record Reranked(String element, String feature, String target, String before, String rank) implements Step {
        @Override
        public Step inverse() {
            return new Reranked(element, feature, target, rank, before);
        }
    }

    /** The id of the element that it changes. */
    String element();

    /** The step that takes it back. */
    Step inverse();

    /**
     * The step that a line says, with or without the space before it.
     *
     * @throws IllegalArgumentException where it is none
     */
    static Step read(String line) {
        List<String> words = words(line.strip());
        return switch (words.get(0)) {
            case "new" -> new Created(words.get(1), words.get(2), Place.read(words.get(3)), words.get(4));
            case "gone" -> new Deleted(words.get(1), words.get(2), Place.read(words.get(3)), words.get(4));
            case "move" -> new Moved(words.get(1), Place.read(words.get(2)), words.get(3), Place.read(words.get(4)), words.get(5));
            case "place" -> new Placed(words.get(1), words.get(2), words.get(3));
            case "put" -> new Put(words.get(1), words.get(2), orNull(words.get(3)), orNull(words.get(4)));
            case "ins" -> new Inserted(words.get(1), words.get(2), Integer.parseInt(words.get(3)), words.get(4));
            case "del" -> new Removed(words.get(1), words.get(2), Integer.parseInt(words.get(3)), words.get(4));
            case "shift" -> new Shifted(words.get(1), words.get(2), Integer.parseInt(words.get(3)), Integer.parseInt(words.get(4)));
            case "link" -> new Linked(words.get(1), words.get(2), words.get(3), words.get(4), orNull(words.get(5)));
            case "unlink" -> new Unlinked(words.get(1), words.get(2), words.get(3), words.get(4), orNull(words.get(5)));
            case "rerank" -> new Reranked(words.get(1), words.get(2), words.get(3), words.get(4), words.get(5));
            default -> throw new IllegalArgumentException("no step: " + line);
        };
    }

    private static String orNull(String word) {
        return word.equals("-") ? null : word;
    }

    /** The words of a line; a text in quotes is one, with its spaces. */
    private static List<String> words(String line) {
        List<String> words = new ArrayList<>();
        int start = 0;
        boolean isText = false;
        for (int i = 0; i < line.length(); i++) {
            char c = line.charAt(i);
            if (c == '\\' && isText) {
                i++;
            } else if (c == '"') {
                isText = !isText;
            } else if (c == ' ' && !isText) {
                words.add(line.substring(start, i));
                start = i + 1;
            }
        }
        words.add(line.substring(start));
        return words;
    }
}
