package emfstore.client;

import emfstore.client.Profile.Feature;
import emfstore.client.Profile.Kind;
import java.util.ArrayList;
import java.util.Collection;
import java.util.List;
import java.util.Map;
import java.util.TreeMap;
import java.util.function.BiPredicate;
import java.util.stream.Collectors;
import org.eclipse.emf.ecore.EObject;
import org.eclipse.emf.ecore.EReference;
import org.eclipse.emf.ecore.InternalEObject;
import org.eclipse.emf.ecore.resource.Resource;

/** The text of elements, as `show` prints it and `import` reads it. */
final class ModelText {
    private final Profile profile;
    private final Ids ids;
    private final BiPredicate<EObject, EObject> isInside;
    private final BiPredicate<EObject, EObject> isLinked;

    /** A text of those children and targets that pass a test, of the element and its child or target. */
    ModelText(Profile profile, Ids ids, BiPredicate<EObject, EObject> isInside, BiPredicate<EObject, EObject> isLinked) {
        this.profile = profile;
        this.ids = ids;
        this.isInside = isInside;
        this.isLinked = isLinked;
    }

    /** The text of a whole model, byte for byte as `show` prints it. */
    static String ofModel(Profile profile, Ids ids, List<EObject> roots) {
        ModelText text = new ModelText(profile, ids, (element, child) -> true, (element, target) -> ids.id(target) != null);
        return roots.size() == 1 ? text.of(roots.get(0)) : roots.stream().map(text::of).collect(Collectors.joining(",", "[", "]"));
    }

    /** The text of one element, with what it contains. */
    String of(EObject element) {
        Map<String, String> keys = new TreeMap<>();
        if (ids.id(element) != null) {
            keys.put("_id", Json.quote(ids.id(element)));
        }
        keys.put("eClass", Json.quote(profile.nsUri() + "#//" + profile.name(element.eClass())));
        for (Feature feature : profile.features(element.eClass()).values()) {
            List<String> parts = element.eIsSet(feature.ecore()) ? parts(element, feature) : List.of();
            if (!parts.isEmpty()) {
                keys.put(feature.name(), feature.isMany() ? "[" + String.join(",", parts) + "]" : parts.get(0));
            }
        }
        return keys.entrySet().stream().map(it -> Json.quote(it.getKey()) + ":" + it.getValue()).collect(Collectors.joining(",", "{", "}"));
    }

    private List<String> parts(EObject element, Feature feature) {
        List<String> parts = new ArrayList<>();
        switch (feature.kind()) {
            case ATTRIBUTE -> list(element, feature).forEach(it -> parts.add(Values.json(feature.attribute(), it)));
            case CONTAINMENT -> passing(isInside, element, feature).forEach(it -> parts.add(of(it)));
            case REFERENCE -> passing(isLinked, element, feature).forEach(it -> parts.add("{\"$ref\":" + Json.quote(ids.id(it)) + "}"));
            default -> { }
        }
        return parts;
    }

    private static List<EObject> passing(BiPredicate<EObject, EObject> test, EObject element, Feature feature) {
        return targets(element, feature.reference()).stream().filter(it -> test.test(element, it)).toList();
    }

    /** Whether an element is one of a resource, by its own place there or by that of an element that contains it. */
    static boolean isIn(Resource resource, EObject element) {
        for (EObject around = element; around != null; around = around.eContainer()) {
            if (((InternalEObject) around).eDirectResource() == resource) {
                return true;
            }
        }
        return false;
    }

    /** The element of a resource that contains this one, or null. An element of EMF's list of roots may stand in a parent that was cut out, too. */
    static EObject parent(Resource resource, EObject element) {
        EObject around = element.eContainer();
        return around != null && isIn(resource, around) ? around : null;
    }

    /** The elements of a resource that stand in no other of it. */
    static List<EObject> roots(Resource resource) {
        return resource.getContents().stream().filter(it -> parent(resource, it) == null).toList();
    }

    /** What an element contains, by the containments that the program has. */
    static List<EObject> children(Profile profile, EObject element) {
        return profile.features(element.eClass()).values().stream().filter(it -> it.kind() == Kind.CONTAINMENT)
                .flatMap(it -> targets(element, it.reference()).stream()).toList();
    }

    /** What a feature holds, as a list also where it is single; nothing where it isn't set. */
    static List<?> list(EObject element, Feature feature) {
        Object held = element.eGet(feature.ecore());
        return feature.isMany() ? new ArrayList<>((Collection<?>) held) : held == null ? List.of() : List.of(held);
    }

    /** What a reference holds, each target once, as a list also where it is single; nothing where it isn't set. */
    @SuppressWarnings("unchecked")
    static List<EObject> targets(EObject element, EReference reference) {
        if (!element.eIsSet(reference)) {
            return List.of();
        }
        Object held = element.eGet(reference);
        if (!reference.isMany()) {
            return held == null ? List.of() : List.of((EObject) held);
        }
        Collection<EObject> all = (Collection<EObject>) held;
        return reference.isUnique() ? List.copyOf(all) : all.stream().distinct().toList();
    }
}
