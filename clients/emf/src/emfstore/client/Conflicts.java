package emfstore.client;

import emfstore.client.Conflict.Change;
import java.io.IOException;
import java.io.UncheckedIOException;
import java.nio.file.Files;
import java.nio.file.Path;
import java.util.ArrayList;
import java.util.Arrays;
import java.util.LinkedHashSet;
import java.util.List;
import java.util.Set;
import java.util.stream.Stream;

/**
 * The conflicts of an update or a merge, with what either side did. Nothing of it is left in the store: that of an update is read there, and that of
 * a merge in a copy of the store's file, where the merge is made with theirs for each bucket. There the workspace's operations tell what was taken
 * back of mine, and what came of theirs.
 */
final class Conflicts {
    /** A line {@code bucket N theirs LIST mine LIST}. */
    private record Bucket(int number, List<Integer> theirs, List<Integer> mine) {
        static Bucket read(String line) {
            String[] words = line.split(" ");
            return new Bucket(Integer.parseInt(words[1]), numbers(words[3]), numbers(words[5]));
        }

        private static List<Integer> numbers(String list) {
            return list.equals("-") ? List.of() : Arrays.stream(list.split(",")).map(Integer::valueOf).toList();
        }
    }

    /** A feature of an element, or for null its place. */
    private record Spot(String element, String feature) { }

    /**
     * Both sides, each operation at its number less one, and the three models. Of mine of a merge those that don't conflict are left out, as null.
     */
    private record Sides(List<Operation> theirs, List<Operation> mine, PrintedModel old, PrintedModel ofTheirs, PrintedModel ofMine) { }

    private static final int STALE = 24;
    private static final int UNSIGNED = 40;

    private final Store store;
    private final int workspace;
    private final List<Bucket> buckets;

    private Conflicts(Store store, int workspace, List<String> lines) {
        this.store = store;
        this.workspace = workspace;
        buckets = lines.stream().map(Bucket::read).toList();
    }

    /** Those of an update that printed these lines. */
    static List<Conflict> ofUpdate(Store store, int workspace, List<String> lines) {
        Conflicts found = new Conflicts(store, workspace, lines);
        return found.with(found.sidesOfUpdate());
    }

    /** Those of a merge of a branch that printed these lines. */
    static List<Conflict> ofMerge(Store store, int workspace, String branch, List<String> lines) {
        Conflicts found = new Conflicts(store, workspace, lines);
        return found.with(found.sidesOfMerge(branch));
    }

    private Sides sidesOfUpdate() {
        // The workspace's base isn't its branch's head, so a commit is refused, and names both.
        Reply stale = store.ask("commit " + workspace);
        if (stale.refusal() == UNSIGNED) {
            stale = store.ask("signed " + workspace + " nobody 0");
        }
        if (stale.refusal() != STALE) {
            throw new IllegalStateException("workspace " + workspace + " is not behind its branch");
        }
        int base = stale.number(2);
        int head = stale.number(3);
        List<Operation> theirs = new ArrayList<>();
        for (Version version : Version.between(store.log(), base, head)) {
            Operation.read(store.send("package " + version.number()).data()).forEach(it -> theirs.add(it.numbered(theirs.size() + 1)));
        }
        return new Sides(theirs, Operation.read(store.send("changes " + workspace).data()), cat(base), cat(head), show());
    }

    private Sides sidesOfMerge(String branch) {
        String letters = "t".repeat(buckets.size());
        List<Operation> recorded = new ArrayList<>();
        int head = inCopy(copy -> {
            int merged = copy.send("merge " + workspace + " " + branch + " " + letters).number(0);
            recorded.addAll(Operation.read(copy.send("changes " + workspace).data()));
            return merged;
        });
        int before = Operation.read(store.send("changes " + workspace).data()).size();
        List<Integer> numbers = buckets.stream().flatMap(it -> it.mine().stream()).sorted().toList();
        List<Operation> theirs = new ArrayList<>();
        for (Operation operation : recorded.subList(before + numbers.size(), recorded.size())) {
            theirs.add(operation.numbered(theirs.size() + 1));
        }
        List<Operation> mine = mine(numbers, recorded.subList(before, before + numbers.size()));
        return new Sides(theirs, mine, cat(common(head, theirs.size())), cat(head), show());
    }

    /** The operations of these numbers, each at its number less one, from those that take them back, the last first. */
    private static List<Operation> mine(List<Integer> numbers, List<Operation> takenBack) {
        int last = numbers.get(numbers.size() - 1);
        Operation[] found = new Operation[last];
        for (int i = 0; i < takenBack.size(); i++) {
            int number = numbers.get(numbers.size() - 1 - i);
            found[number - 1] = takenBack.get(i).inverse().numbered(number);
        }
        return Arrays.asList(found);
    }

    /** The version before the last so many operations on the way to another one. */
    private int common(int head, int operations) {
        List<Version> log = store.log();
        int at = head;
        for (int left = operations; left > 0; at = log.get(at).parent()) {
            left -= log.get(at).operations();
        }
        return at;
    }

    private interface Calls {
        int in(Store copy) throws IOException;
    }

    /** Makes calls in a copy of the store, which is gone afterwards. A plain copy of the file is a store at each moment between calls. */
    private int inCopy(Calls calls) {
        try {
            Path place = Files.createTempDirectory("emfstore");
            Path file = place.resolve(Store.JOURNAL);
            try {
                Files.copy(store.folder().resolve(Store.JOURNAL), file);
                try (Store copy = new Store(store.program(), place)) {
                    return calls.in(copy);
                }
            } finally {
                Files.deleteIfExists(file);
                Files.deleteIfExists(place);
            }
        } catch (IOException fault) {
            throw new UncheckedIOException("the conflicts can't be looked at in a copy of the store", fault);
        }
    }

    private PrintedModel cat(int version) {
        return new PrintedModel(store.send("cat " + version).data().get(0));
    }

    private PrintedModel show() {
        return new PrintedModel(store.send("show " + workspace).data().get(0));
    }

    private List<Conflict> with(Sides sides) {
        return buckets.stream().map(it -> {
            List<Operation> theirs = it.theirs().stream().map(number -> sides.theirs().get(number - 1)).toList();
            List<Operation> mine = it.mine().stream().map(number -> sides.mine().get(number - 1)).toList();
            Set<Spot> spots = new LinkedHashSet<>();
            Stream.concat(theirs.stream(), mine.stream()).flatMap(operation -> operation.steps().stream()).forEach(step -> spots.addAll(spots(step)));
            return new Conflict(it.number(), theirs, mine, spots.stream().map(spot -> change(spot, sides)).toList());
        }).toList();
    }

    private static List<Spot> spots(Step step) {
        if (step instanceof Step.Put put) {
            return List.of(new Spot(put.element(), put.feature()));
        } else if (step instanceof Step.Inserted inserted) {
            return List.of(new Spot(inserted.element(), inserted.feature()));
        } else if (step instanceof Step.Removed removed) {
            return List.of(new Spot(removed.element(), removed.feature()));
        } else if (step instanceof Step.Shifted shifted) {
            return List.of(new Spot(shifted.element(), shifted.feature()));
        } else if (step instanceof Step.Linked linked) {
            return List.of(new Spot(linked.element(), linked.feature()));
        } else if (step instanceof Step.Unlinked unlinked) {
            return List.of(new Spot(unlinked.element(), unlinked.feature()));
        } else if (step instanceof Step.Reranked reranked) {
            return List.of(new Spot(reranked.element(), reranked.feature()));
        }
        return List.of(new Spot(step.element(), null));
    }

    private static Change change(Spot spot, Sides sides) {
        String id = spot.element();
        PrintedModel known = Stream.of(sides.ofMine(), sides.ofTheirs(), sides.old()).filter(it -> it.has(id)).findFirst().orElse(null);
        String label = known == null ? id : known.label(id);
        String path = known == null ? id : known.path(id);
        return new Change(id, label, path, spot.feature(), sides.old().value(id, spot.feature()), sides.ofTheirs().value(id, spot.feature()),
                sides.ofMine().value(id, spot.feature()));
    }
}
