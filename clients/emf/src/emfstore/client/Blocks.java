package emfstore.client;

import emfstore.client.Profile.Feature;
import emfstore.client.Profile.Kind;
import java.nio.charset.StandardCharsets;
import java.util.ArrayDeque;
import java.util.ArrayList;
import java.util.Deque;
import java.util.IdentityHashMap;
import java.util.LinkedHashMap;
import java.util.List;
import java.util.Map;
import java.util.stream.Collectors;
import java.util.stream.Stream;
import org.eclipse.emf.ecore.EObject;
import org.eclipse.emf.ecore.EReference;

/**
 * A model as blocks of `import`, and the lines that join them. A piece is an element with what it contains, but for the pieces cut out of it. Pieces
 * are gathered into blocks in their order. What was cut out is moved into its place afterwards, and then the links between blocks are made.
 */
final class Blocks {
    /** The limits of one block. An item is an element, a value or a target; an event has at most so many bytes for it beside those of its text. */
    record Limits(long blockBytes, long eventBytes, int itemBytes, int levels) {
        /** Those of the program, with some room: 8,388,608 bytes a block, 16,777,211 an event, and 127 levels of JSON, two for each of elements. */
        static final Limits OF_PROGRAM = new Limits(8_000_000, 16_000_000, 160, 60);

        boolean hold(Size size) {
            return size.bytes <= blockBytes && size.bytes + size.items * itemBytes <= eventBytes;
        }
    }

    private record Size(long bytes, long items) {
        static final Size NOTHING = new Size(0, 0);

        Size and(Size other) {
            return new Size(bytes + other.bytes, items + other.items);
        }
    }

    /** What an id that is given later adds to a text. */
    private static final int ID_BYTES = 40;

    private final Profile profile;
    private final Ids ids;
    private final Lines lines;
    private final Limits limits;
    private final Map<EObject, Size> own = new IdentityHashMap<>();
    private final Map<EObject, Size> whole = new IdentityHashMap<>();
    /** Where the pieces that were cut out are to stand among the children of their parent. */
    private final Map<EObject, Integer> places = new IdentityHashMap<>();
    private final Map<EObject, EObject> pieces = new LinkedHashMap<>();
    private final Map<EObject, Integer> blocks = new IdentityHashMap<>();
    private final Deque<EObject> open = new ArrayDeque<>();

    /** Elements that others refer to must have their ids; others may. */
    Blocks(Profile profile, Ids ids, Lines lines, Limits limits) {
        this.profile = profile;
        this.ids = ids;
        this.lines = lines;
        this.limits = limits;
    }

    /**
     * The lines that bring a model in.
     *
     * @throws IllegalArgumentException where an element is larger than a block without what it contains
     */
    List<String> script(List<EObject> roots) {
        roots.forEach(this::measure);
        Map<EObject, Size> cut = cut(roots);
        List<List<EObject>> gathered = gathered(cut);
        List<String> script = new ArrayList<>();
        ModelText text = new ModelText(profile, ids, this::isOnePiece, this::isOneBlock);
        for (List<EObject> block : gathered) {
            script.add(lines.command("import"));
            script.add(block.stream().map(text::of).collect(Collectors.joining(",\n", "[", "]")));
            script.add(".");
        }
        for (EObject piece : cut.keySet()) {
            if (places.containsKey(piece)) {
                script.add(lines.move(piece, piece.eContainer(), (EReference) piece.eContainingFeature(), places.get(piece)));
            }
        }
        link(script);
        return script;
    }

    private boolean isOnePiece(EObject element, EObject child) {
        return pieces.get(element) == pieces.get(child);
    }

    private boolean isOneBlock(EObject element, EObject target) {
        return pieces.containsKey(target) && blocks.get(pieces.get(element)).equals(blocks.get(pieces.get(target)));
    }

    /** Finds the size of an element alone, and of it with all that it contains. */
    private Size measure(EObject element) {
        String alone = new ModelText(profile, ids, (it, child) -> false, (it, target) -> ids.id(target) != null).of(element);
        long items = 1;
        for (Feature feature : profile.features(element.eClass()).values()) {
            boolean isCounted = feature.kind() == Kind.ATTRIBUTE || feature.kind() == Kind.REFERENCE;
            items += isCounted && element.eIsSet(feature.ecore()) ? ModelText.list(element, feature).size() : 0;
        }
        Size size = new Size(alone.getBytes(StandardCharsets.UTF_8).length + ID_BYTES, items);
        own.put(element, size);
        for (EObject child : ModelText.children(profile, element)) {
            size = size.and(measure(child));
        }
        whole.put(element, size);
        return size;
    }

    /** The pieces of a model with their sizes, the roots first; what is cut out of one comes in the order of its children. */
    private Map<EObject, Size> cut(List<EObject> roots) {
        Map<EObject, Size> cut = new LinkedHashMap<>();
        open.addAll(roots);
        while (!open.isEmpty()) {
            EObject piece = open.remove();
            if (!limits.hold(own.get(piece))) {
                throw new IllegalArgumentException(profile.name(piece.eClass()) + " " + ids.id(piece) + ": too large for a block");
            }
            cut.put(piece, fill(piece, piece, 1, Size.NOTHING));
        }
        return cut;
    }

    /** Takes an element into a piece with those of its children that fit, and gives the size of the piece then. */
    private Size fill(EObject element, EObject piece, int level, Size before) {
        pieces.put(element, piece);
        Size size = before.and(own.get(element));
        for (EObject child : ModelText.children(profile, element)) {
            if (level < limits.levels && limits.hold(size.and(whole.get(child)))) {
                size = fill(child, piece, level + 1, size);
            } else {
                open.add(child);
            }
        }
        for (Feature feature : profile.features(element.eClass()).values()) {
            if (feature.kind() == Kind.CONTAINMENT) {
                findPlaces(ModelText.targets(element, feature.reference()));
            }
        }
        return size;
    }

    /** Finds where those children are to stand that are cut out: last, where all that come after are cut out too and so come later. */
    private void findPlaces(List<EObject> children) {
        boolean isLast = true;
        for (int i = children.size() - 1; i >= 0; i--) {
            if (pieces.containsKey(children.get(i))) {
                isLast = false;
            } else {
                places.put(children.get(i), isLast ? Lines.END : i);
            }
        }
    }

    private List<List<EObject>> gathered(Map<EObject, Size> cut) {
        List<List<EObject>> gathered = new ArrayList<>();
        Size size = Size.NOTHING;
        for (Map.Entry<EObject, Size> piece : cut.entrySet()) {
            size = size.and(piece.getValue());
            if (gathered.isEmpty() || !limits.hold(size)) {
                gathered.add(new ArrayList<>());
                size = piece.getValue();
            }
            gathered.get(gathered.size() - 1).add(piece.getKey());
            blocks.put(piece.getKey(), gathered.size());
        }
        Stream<EObject> moved = places.keySet().stream().flatMap(it -> Stream.of(it, it.eContainer()));
        Stream<EObject> linked = pieces.keySet().stream().filter(this::isLinkedOutside);
        Stream.concat(moved, linked).filter(it -> ids.id(it) == null).toList().forEach(ids::name);
        return gathered;
    }

    /** Whether a line is to make a link of the element: one into another block. */
    private boolean isLinkedOutside(EObject element) {
        return profile.features(element.eClass()).values().stream().filter(it -> it.kind() == Kind.REFERENCE)
                .flatMap(it -> ModelText.targets(element, it.reference()).stream())
                .anyMatch(it -> pieces.containsKey(it) && !isOneBlock(element, it));
    }

    private void link(List<String> script) {
        Links links = new Links(profile, ids, lines, script::add);
        links.load(pieces.keySet(), (element, reference) ->
                ModelText.targets(element, reference).stream().filter(it -> isOneBlock(element, it)).toList(), Map.of());
        links.syncAll(pieces.keySet());
    }
}
