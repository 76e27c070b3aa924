package emfstore.client;

import emfstore.client.Profile.Feature;
import emfstore.client.Profile.Kind;
import java.util.ArrayList;
import java.util.LinkedHashSet;
import java.util.List;
import java.util.Random;
import java.util.Set;
import org.eclipse.emf.common.util.EList;
import org.eclipse.emf.ecore.EClass;
import org.eclipse.emf.ecore.EDataType;
import org.eclipse.emf.ecore.EEnum;
import org.eclipse.emf.ecore.EObject;
import org.eclipse.emf.ecore.EReference;
import org.eclipse.emf.ecore.resource.Resource;
import org.eclipse.emf.ecore.util.EcoreUtil;

/** Random edits of a resource, of each kind that Ecore has, always the same for one seed. */
final class RandomEdits {
    private static final List<String> TEXTS =
            List.of("", "a", "b c", "7", "tab\tand \"quotes\"", "back\\slash\nline", "größe \ud83d\ude00 <&>", "true");

    private static final int TRIES = 10;

    private final Profile profile;
    private final Resource resource;
    private final Random random;
    private final List<EClass> classes;
    /** All objects that were ever made and not deleted, inside the resource or cut out of it. */
    private final Set<EObject> made = new LinkedHashSet<>();

    RandomEdits(Profile profile, Resource resource, long seed, List<EClass> classes) {
        this.profile = profile;
        this.resource = resource;
        this.classes = classes;
        random = new Random(seed);
    }

    /** Makes one edit, which may be one that changes nothing. Where there are more elements than so many, some are deleted before. */
    void edit(int most) {
        while (made.size() > most) {
            delete(any());
        }
        int kind = random.nextInt(20);
        if (kind < 3 || made.isEmpty()) {
            put(create(random.nextInt(2)));
        } else if (kind < 4) {
            EcoreUtil.remove(any());
        } else if (kind < 5) {
            put(any());
        } else if (kind < 6) {
            delete(any());
        } else {
            edit(any());
        }
    }

    /** Puts each element that was cut out, and that something may still refer to, to the root. What is refused there is deleted. */
    void putBack() {
        for (EObject element : made.stream().filter(it -> it.eContainer() == null && it.eResource() == null).toList()) {
            try {
                resource.getContents().add(element);
            } catch (RefusedException | IllegalArgumentException refused) {
                delete(element);
            }
        }
    }

    /** Takes what else is in the resource as made too, as what a refused change or an update brings back. */
    void refresh() {
        resource.getAllContents().forEachRemaining(made::add);
    }

    private <T> T one(List<T> items) {
        return items.get(random.nextInt(items.size()));
    }

    private EObject any() {
        return one(List.copyOf(made));
    }

    private EObject create(int depth) {
        EObject created = EcoreUtil.create(one(classes));
        made.add(created);
        for (Feature feature : editable(created)) {
            boolean isFilled = feature.kind() == Kind.CONTAINMENT ? depth > 0 : feature.kind() != Kind.CONTAINER;
            if (isFilled && random.nextInt(3) == 0) {
                edit(created, feature, depth - 1);
            }
        }
        return created;
    }

    /** Deletes an element, as an editor does: with all links to it and to what it contains, those of elements that were cut out too. */
    private void delete(EObject element) {
        Set<EObject> gone = new LinkedHashSet<>(List.of(element));
        element.eAllContents().forEachRemaining(gone::add);
        made.removeAll(gone);
        for (EObject other : made) {
            for (Feature feature : editable(other)) {
                if (feature.kind() == Kind.REFERENCE && feature.isMany()) {
                    list(other, feature).removeAll(gone);
                } else if (feature.kind() == Kind.REFERENCE && gone.contains(other.eGet(feature.ecore()))) {
                    other.eSet(feature.ecore(), null);
                }
            }
        }
        resource.getContents().removeAll(gone);
        EcoreUtil.remove(element);
    }

    /** Puts an element, new or known, to the root or into a containment that may hold it. */
    private void put(EObject element) {
        EObject parent = any();
        for (int i = 0; i < TRIES && (EcoreUtil.isAncestor(element, parent) || containments(parent, element).isEmpty()); i++) {
            parent = any();
        }
        if (EcoreUtil.isAncestor(element, parent) || containments(parent, element).isEmpty() || random.nextInt(8) == 0) {
            insert(resource.getContents(), element);
            return;
        }
        Feature feature = one(containments(parent, element));
        if (feature.isMany()) {
            insert(list(parent, feature), element);
        } else {
            parent.eSet(feature.ecore(), element);
        }
    }

    private List<Feature> containments(EObject parent, EObject child) {
        return profile.features(parent.eClass()).values().stream()
                .filter(it -> it.kind() == Kind.CONTAINMENT && it.reference().getEReferenceType().isInstance(child)).toList();
    }

    private void edit(EObject element) {
        if (!editable(element).isEmpty()) {
            edit(element, one(editable(element)), 1);
        }
    }

    private List<Feature> editable(EObject element) {
        return profile.features(element.eClass()).values().stream().filter(it -> it.kind() != Kind.SKIPPED).toList();
    }

    private void edit(EObject element, Feature feature, int depth) {
        if (feature.kind() == Kind.CONTAINER) {
            put(element);
        } else if (feature.isMany()) {
            editList(element, feature, depth);
        } else if (random.nextInt(5) == 0) {
            element.eUnset(feature.ecore());
        } else {
            Object value = value(element, feature, depth);
            if (value != null && !(feature.ecore().isUnsettable() && value.equals(feature.ecore().getDefaultValue()))) {
                element.eSet(feature.ecore(), value);
            }
        }
    }

    private void editList(EObject element, Feature feature, int depth) {
        EList<Object> list = list(element, feature);
        Object value = value(element, feature, depth);
        int kind = random.nextInt(12);
        boolean isBounded = feature.ecore().getUpperBound() > 1;
        if (kind < (isBounded ? 9 : 4) || list.isEmpty()) {
            if (value != null) {
                insert(list, value);
            }
        } else if (kind < 5) {
            list.remove(random.nextInt(list.size()));
        } else if (kind < 8) {
            list.move(random.nextInt(list.size()), random.nextInt(list.size()));
        } else if (kind < 9 && value != null && !list.contains(value)) {
            list.set(random.nextInt(list.size()), value);
        } else if (kind < 10) {
            List<Object> more = new ArrayList<>();
            for (int i = 0; i < 3; i++) {
                Object other = value(element, feature, depth);
                if (other != null && (!feature.ecore().isUnique() || !list.contains(other))) {
                    more.add(other);
                }
            }
            list.addAll(random.nextInt(list.size() + 1), more);
        } else if (kind < 11) {
            list.removeAll(List.copyOf(list.subList(random.nextInt(list.size()), list.size())));
        } else {
            element.eUnset(feature.ecore());
        }
    }

    private <T> void insert(EList<T> list, T value) {
        if (!list.contains(value)) {
            list.add(random.nextInt(list.size() + 1), value);
        } else {
            list.move(random.nextInt(list.size()), value);
        }
    }

    @SuppressWarnings("unchecked")
    private static EList<Object> list(EObject element, Feature feature) {
        return (EList<Object>) element.eGet(feature.ecore());
    }

    /** A value that fits the feature of an element, or null where there is none at hand. */
    private Object value(EObject element, Feature feature, int depth) {
        if (feature.kind() == Kind.ATTRIBUTE) {
            return value(feature.attribute().getEAttributeType());
        }
        boolean isNew = feature.kind() == Kind.CONTAINMENT && random.nextInt(3) > 0;
        List<EObject> found = isNew ? List.of(create(depth)) : List.copyOf(made);
        found = found.stream().filter(it -> feature.reference().getEReferenceType().isInstance(it) && !(it == element && isOdd(feature.reference()))
                && (feature.kind() == Kind.REFERENCE || !EcoreUtil.isAncestor(it, element))).toList();
        return found.isEmpty() ? null : one(found);
    }

    /** Whether EMF itself doesn't keep a link of an element to itself: it leaves one end of it, or loads it at another index than it was saved. */
    private static boolean isOdd(EReference reference) {
        EReference opposite = reference.getEOpposite();
        return opposite == reference || opposite != null && opposite.isMany() && reference.isMany();
    }

    private Object value(EDataType type) {
        if (type instanceof EEnum listed) {
            return EcoreUtil.createFromString(type, one(listed.getELiterals()).getLiteral());
        }
        String number = String.valueOf(random.nextInt(4) == 0 ? -random.nextInt(100) : random.nextInt(5));
        String text = switch (type.getName()) {
            case "EByte", "EShort", "EInt", "ELong", "EIntegerObject" -> number;
            case "EDouble", "EFloat", "EBigDecimal", "Length" -> number + ".5";
            case "EBoolean" -> String.valueOf(random.nextBoolean());
            case "EChar" -> String.valueOf(48 + random.nextInt(70));
            case "EDate" -> "2020-02-0" + (1 + random.nextInt(9)) + "T10:00:00.000+0000";
            default -> one(TEXTS) + number;
        };
        return EcoreUtil.createFromString(type, text);
    }
}
