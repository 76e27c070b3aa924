package emfstore.client;

import emfstore.client.Profile.Feature;
import emfstore.client.Profile.Kind;
import java.util.ArrayList;
import java.util.Collection;
import java.util.HashMap;
import java.util.HashSet;
import java.util.IdentityHashMap;
import java.util.LinkedHashSet;
import java.util.List;
import java.util.Map;
import java.util.Set;
import java.util.WeakHashMap;
import java.util.function.BiFunction;
import java.util.function.Consumer;
import org.eclipse.emf.ecore.EObject;
import org.eclipse.emf.ecore.EReference;

/**
 * The lists of plain references as the store has them, and the lines that make them those of the model. EMF tells of both ends of a pair of
 * opposites, and the store has one link of them. So what is already there is found here, and not in what EMF tells.
 */
final class Links {
    private final Profile profile;
    private final Ids ids;
    private final Lines lines;
    private final Consumer<String> out;
    private final Map<EObject, Map<EReference, List<EObject>>> stored = new IdentityHashMap<>();
    /** For each target the elements that refer to it, or did; targets outside the store too. */
    private final Map<EObject, Set<EObject>> sources = new WeakHashMap<>();
    private Map<EObject, Set<EReference>> faulty = Map.of();

    Links(Profile profile, Ids ids, Lines lines, Consumer<String> out) {
        this.profile = profile;
        this.ids = ids;
        this.lines = lines;
        this.out = out;
    }

    /**
     * Takes those links as stored that a function of the element and the reference gives, and no others.
     *
     * @param failing the references that the model can't hold as they are stored: nothing is sent of these
     */
    void load(Iterable<EObject> elements, BiFunction<EObject, EReference, List<EObject>> targets, Map<EObject, Set<EReference>> failing) {
        stored.clear();
        sources.clear();
        faulty = failing;
        for (EObject element : elements) {
            for (EReference reference : references(element)) {
                ModelText.targets(element, reference).forEach(it -> addSource(it, element));
                targets.apply(element, reference).forEach(it -> addSource(it, element));
                list(element, reference).addAll(targets.apply(element, reference));
            }
        }
    }

    /** Takes all links of an element as stored that the model has. */
    void take(EObject element) {
        for (EReference reference : references(element)) {
            List<EObject> list = list(element, reference);
            list.clear();
            list.addAll(wanted(element, reference));
            list.forEach(it -> addSource(it, element));
        }
    }

    /** Drops all links of an element, as its deletion does. Those that the model still has are made anew when it comes back. */
    void forget(EObject element) {
        for (EObject source : sources.getOrDefault(element, Set.of())) {
            stored.getOrDefault(source, Map.of()).values().forEach(it -> it.remove(element));
        }
        stored.remove(element);
    }

    /** Sends what makes all plain references of an element, and those to it, those of the model. */
    void sync(EObject element) {
        references(element).forEach(it -> sync(element, it));
        for (EObject source : List.copyOf(sources.getOrDefault(element, Set.of()))) {
            if (ids.id(source) != null) {
                references(source).forEach(it -> sync(source, it));
            }
        }
    }

    /** Sends what makes all plain references of all elements those of the model. A line may take away what an earlier one made, so it looks twice. */
    void syncAll(Collection<EObject> elements) {
        for (int i = 0; i < 2; i++) {
            for (EObject element : elements) {
                references(element).forEach(it -> sync(element, it));
            }
        }
    }

    private List<EReference> references(EObject element) {
        return profile.features(element.eClass()).values().stream().filter(it -> it.kind() == Kind.REFERENCE).map(Feature::reference).toList();
    }

    /** Sends what makes a plain reference that of the model. Targets outside the store are passed over. */
    void sync(EObject element, EReference reference) {
        if (faulty.getOrDefault(element, Set.of()).contains(reference)) {
            return;
        }
        ModelText.targets(element, reference).forEach(it -> addSource(it, element));
        List<EObject> wanted = wanted(element, reference);
        if (list(element, reference).equals(wanted)) {
            return;
        }
        Set<EObject> kept = new HashSet<>(wanted);
        if (reference.isMany() || wanted.isEmpty()) {
            List.copyOf(list(element, reference)).stream().filter(it -> !kept.contains(it)).forEach(it -> lose(element, reference, it));
        }
        Set<EObject> there = new HashSet<>(list(element, reference));
        wanted.stream().filter(it -> !there.contains(it)).forEach(it -> connect(element, reference, it));
        arrange(element, reference);
    }

    private List<EObject> wanted(EObject element, EReference reference) {
        return ModelText.targets(element, reference).stream().filter(it -> ids.id(it) != null).toList();
    }

    private List<EObject> list(EObject element, EReference reference) {
        return stored.computeIfAbsent(element, none -> new HashMap<>()).computeIfAbsent(reference, none -> new ArrayList<>());
    }

    /** Takes a link away. Where the target's single opposite has another element now, one line takes the link away and makes that one. */
    private void lose(EObject element, EReference reference, EObject target) {
        EReference opposite = profile.opposite(reference);
        List<EObject> partners = opposite == null || opposite.isMany() ? List.of() : wanted(target, opposite);
        if (!partners.isEmpty() && partners.get(0) != element) {
            connect(partners.get(0), reference, target);
        } else {
            out.accept(reference.isMany() ? lines.unlink(element, reference, target) : lines.unset(element, reference));
            unlinked(element, reference, target);
        }
    }

    private void connect(EObject element, EReference reference, EObject target) {
        List<EObject> list = list(element, reference);
        Set<EObject> there = new HashSet<>(list);
        List<EObject> wanted = wanted(element, reference);
        int index = (int) wanted.subList(0, wanted.indexOf(target)).stream().filter(there::contains).count();
        if (reference.isMany()) {
            out.accept(lines.link(element, reference, target, index == list.size() ? Lines.END : index));
        } else {
            out.accept(lines.set(element, reference, target));
        }
        linked(element, reference, index, target);
    }

    /** Puts the stored list into the model's order: an entry that stands too early is moved back, any other one forward. */
    private void arrange(EObject element, EReference reference) {
        List<EObject> list = list(element, reference);
        List<EObject> wanted = wanted(element, reference);
        for (int i = 0; i < wanted.size(); ) {
            if (list.get(i) == wanted.get(i)) {
                i++;
                continue;
            }
            boolean isEarly = i + 1 < list.size() && list.get(i + 1) == wanted.get(i);
            EObject moved = isEarly ? list.get(i) : wanted.get(i);
            int index = isEarly ? wanted.indexOf(moved) : i;
            out.accept(lines.reorder(element, reference, moved, index));
            list.remove(moved);
            list.add(index, moved);
        }
    }

    /** What a link does in the store: single ends lose what they had, and the element stands last on the other side. */
    private void linked(EObject element, EReference reference, int index, EObject target) {
        EReference opposite = profile.opposite(reference);
        if (!reference.isMany()) {
            List.copyOf(list(element, reference)).forEach(it -> unlinked(element, reference, it));
        }
        if (opposite != null && !opposite.isMany()) {
            List.copyOf(list(target, opposite)).forEach(it -> unlinked(target, opposite, it));
        }
        List<EObject> list = list(element, reference);
        list.add(Math.min(index, list.size()), target);
        addSource(target, element);
        if (opposite != null) {
            list(target, opposite).add(element);
            addSource(element, target);
        }
    }

    private void addSource(EObject target, EObject element) {
        sources.computeIfAbsent(target, none -> new LinkedHashSet<>()).add(element);
    }

    private void unlinked(EObject element, EReference reference, EObject target) {
        list(element, reference).remove(target);
        EReference opposite = profile.opposite(reference);
        if (opposite != null) {
            list(target, opposite).remove(element);
        }
    }
}
