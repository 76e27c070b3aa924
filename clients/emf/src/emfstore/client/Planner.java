package emfstore.client;

import emfstore.client.Profile.Feature;
import emfstore.client.Profile.Kind;
import java.util.ArrayDeque;
import java.util.ArrayList;
import java.util.Collection;
import java.util.Collections;
import java.util.Comparator;
import java.util.Deque;
import java.util.HashMap;
import java.util.IdentityHashMap;
import java.util.List;
import java.util.Map;
import java.util.Set;
import java.util.stream.Stream;
import org.eclipse.emf.common.notify.Notification;
import org.eclipse.emf.ecore.EObject;
import org.eclipse.emf.ecore.EReference;
import org.eclipse.emf.ecore.EStructuralFeature;
import org.eclipse.emf.ecore.resource.Resource;
import org.eclipse.emf.ecore.util.EcoreUtil;
import org.eclipse.emf.ecore.xmi.XMLResource;

/** The lines that make the store follow a resource, notification by notification. EMF notifies when all of a call is done. */
final class Planner {
    private final Profile profile;
    private final Resource resource;
    private final Ids ids;
    private final Lines lines;
    private final Links links;
    private final List<String> planned = new ArrayList<>();
    /** Where elements stood before that are on their way to another place. */
    private final Map<EObject, EObject> parentsBefore = new HashMap<>();
    /** What takes back the changes of ids, the last first. */
    private final Deque<Runnable> idsBefore = new ArrayDeque<>();

    Planner(Profile profile, Resource resource, Ids ids, Lines lines) {
        this.profile = profile;
        this.resource = resource;
        this.ids = ids;
        this.lines = lines;
        links = new Links(profile, ids, lines, planned::add);
    }

    /**
     * The lines for a notification. The ids of what they create and delete are given and taken at once.
     *
     * @throws IllegalArgumentException where the program can't hold what is there now
     */
    List<String> plan(Notification notification) {
        planned.clear();
        if (notification.getNotifier() == resource) {
            if (notification.getFeatureID(Resource.class) == Resource.RESOURCE__CONTENTS) {
                planPlace(notification, null, null);
            }
        } else if (notification.getFeature() instanceof EStructuralFeature ecore && profile.feature(ecore) != null) {
            planFeature(notification, (EObject) notification.getNotifier(), profile.feature(ecore));
        }
        return List.copyOf(planned);
    }

    /** What was planned is kept. */
    void keep() {
        idsBefore.clear();
    }

    /** What was planned since the last call of {@link #keep} isn't to be: each element has the id that it had. */
    void takeBack() {
        idsBefore.forEach(Runnable::run);
        idsBefore.clear();
        parentsBefore.clear();
    }

    /**
     * The lines after the resource was filled. There are some where EMF can't hold what the store does: after a merge a reference that is its own
     * opposite may have a target that doesn't refer back.
     */
    List<String> plan(ModelFiller filled) {
        planned.clear();
        links.load(ids.elements(), filled::targets, filled.faulty());
        links.syncAll(ids.elements());
        return List.copyOf(planned);
    }

    /** What steps made of the resource is what the store has: its ids, and its links. */
    void take(StepPlayer played) {
        for (EObject element : played.removed()) {
            links.forget(element);
            ids.remove(element);
        }
        played.touched().stream().filter(it -> ids.id(it) != null).forEach(links::take);
    }

    /** Nothing of the resource is known any more. */
    void forget() {
        List.copyOf(ids.elements()).forEach(ids::remove);
        parentsBefore.clear();
        idsBefore.clear();
    }

    private void planFeature(Notification notification, EObject element, Feature feature) {
        if (ids.id(element) == null) {
            return;
        }
        if (feature.kind() == Kind.REFERENCE) {
            // Of a reference that is its own opposite EMF says that nothing changed at the other end.
            checkTargets(element, feature);
            links.sync(element, feature.reference());
        } else if (feature.kind() == Kind.ATTRIBUTE && !notification.isTouch()) {
            planAttribute(notification, element, feature);
        } else if (feature.kind() == Kind.CONTAINMENT && !notification.isTouch()) {
            planPlace(notification, element, feature.reference());
        }
    }

    private static void checkTargets(EObject element, Feature feature) {
        if (ModelText.list(element, feature).size() > ModelText.targets(element, feature.reference()).size()) {
            throw new IllegalArgumentException("a target twice in " + Reach.path(feature.ecore()));
        }
    }

    private void planAttribute(Notification notification, EObject element, Feature feature) {
        int at = notification.getPosition();
        if (ModelText.list(element, feature).isEmpty() || !element.eIsSet(feature.ecore())) {
            planned.add(lines.unset(element, feature.ecore()));
        } else if (!feature.isMany()) {
            planned.add(lines.set(element, feature, element.eGet(feature.ecore())));
        } else {
            switch (notification.getEventType()) {
                case Notification.ADD -> planned.add(lines.add(element, feature, at, notification.getNewValue()));
                case Notification.ADD_MANY -> planValues(element, feature, at, (List<?>) notification.getNewValue());
                case Notification.REMOVE -> planned.add(lines.remove(element, feature, at));
                case Notification.REMOVE_MANY -> planRemovals(element, feature, (int[]) notification.getNewValue());
                case Notification.MOVE -> planned.add(lines.shift(element, feature, (Integer) notification.getOldValue(), at));
                case Notification.SET -> {
                    planned.add(lines.remove(element, feature, at));
                    planned.add(lines.add(element, feature, at, notification.getNewValue()));
                }
                default -> { }
            }
        }
    }

    private void planValues(EObject element, Feature feature, int first, List<?> values) {
        for (int i = 0; i < values.size(); i++) {
            planned.add(lines.add(element, feature, first + i, values.get(i)));
        }
    }

    private void planRemovals(EObject element, Feature feature, int[] places) {
        for (int i = places.length - 1; i >= 0; i--) {
            planned.add(lines.remove(element, feature, places[i]));
        }
    }

    private void planPlace(Notification notification, EObject parent, EReference containment) {
        List<EObject> gone = new ArrayList<>();
        List<EObject> freed = new ArrayList<>();
        for (EObject element : elements(notification.getOldValue())) {
            if (!ModelText.isIn(resource, element)) {
                gone.add(element);
            } else if (ModelText.parent(resource, element) != null) {
                parentsBefore.put(element, parent);
            } else {
                freed.add(element);
            }
        }
        List<EObject> added = arriving(notification, parent);
        added.stream().filter(it -> gone.stream().anyMatch(above -> EcoreUtil.isAncestor(above, parentsBefore.get(it))))
                .forEach(it -> planned.add(lines.move(it, null, null, Lines.END)));
        if (!added.isEmpty()) {
            freed.forEach(it -> planned.add(lines.move(it, null, null, Lines.END)));
        }
        gone.stream().filter(it -> ids.id(it) != null).forEach(it -> planDeletion(it, freed));
        planArrivals(added, parent, containment);
        planRoots(freed);
        Stream.of(notification.getOldValue(), notification.getNewValue()).flatMap(it -> elements(it).stream()).forEach(this::keepId);
    }

    /** Gives an element of the resource, and all inside it, its id there too. EMF drops it where an element leaves the list of roots. */
    private void keepId(EObject element) {
        if (resource instanceof XMLResource file && ids.id(element) != null) {
            file.setID(element, ids.id(element));
            ModelText.children(profile, element).forEach(this::keepId);
        }
    }

    /** What a notification brings to a place. What comes to the root from a container was moved when it left that. */
    private List<EObject> arriving(Notification notification, EObject parent) {
        boolean isMove = notification.getEventType() == Notification.MOVE;
        return elements(notification.getNewValue()).stream()
                .filter(it -> ModelText.parent(resource, it) == parent && (parent != null || isMove || ids.id(it) == null)).toList();
    }

    /** Brings elements to their places at the root. */
    private void planRoots(List<EObject> elements) {
        if (!elements.isEmpty()) {
            Map<EObject, Integer> indices = indices(ModelText.roots(resource));
            planArrivals(elements.stream().sorted(Comparator.comparing(indices::get)).toList(), null, null);
        }
    }

    /** Brings elements to a place, which has them in this order. One that no other stands after, but for those still to come, comes last. */
    private void planArrivals(List<EObject> elements, EObject parent, EReference containment) {
        if (elements.isEmpty()) {
            return;
        }
        List<EObject> place = parent == null ? ModelText.roots(resource) : ModelText.targets(parent, containment);
        Map<EObject, Integer> indices = indices(place);
        Set<EObject> toCome = Collections.newSetFromMap(new IdentityHashMap<>());
        toCome.addAll(elements);
        int last = Lines.END;
        for (EObject other : place) {
            last = toCome.contains(other) ? last : Math.max(last, indices.get(other));
        }
        for (EObject element : elements) {
            int index = indices.get(element);
            planArrival(element, parent, containment, index > last ? Lines.END : index);
            last = Math.max(last, index);
        }
    }

    private static Map<EObject, Integer> indices(List<EObject> place) {
        Map<EObject, Integer> found = new IdentityHashMap<>();
        for (int i = 0; i < place.size(); i++) {
            found.put(place.get(i), i);
        }
        return found;
    }

    private void planArrival(EObject element, EObject parent, EReference containment, int index) {
        parentsBefore.remove(element);
        List<EObject> arrived = new ArrayList<>();
        if (ids.id(element) == null) {
            planCreation(element, parent, containment, arrived);
        }
        if (arrived.isEmpty() || index != Lines.END) {
            planned.add(lines.move(element, parent, containment, index));
        }
        arrived.forEach(this::planAttributes);
        arrived.forEach(links::sync);
    }

    /** Creates an element last in a place, with all inside it. What the store has already is moved there. */
    private void planCreation(EObject element, EObject parent, EReference containment, List<EObject> arrived) {
        if (profile.features(element.eClass()) == null) {
            throw new IllegalArgumentException("no class of the metamodel: " + Reach.path(element.eClass()));
        }
        profile.features(element.eClass()).values().stream().filter(it -> it.kind() == Kind.REFERENCE).forEach(it -> checkTargets(element, it));
        ids.name(element);
        idsBefore.push(() -> ids.remove(element));
        arrived.add(element);
        planned.add(lines.create(element, parent, containment));
        for (EObject child : ModelText.children(profile, element)) {
            EReference inside = (EReference) child.eContainingFeature();
            if (ids.id(child) == null) {
                planCreation(child, element, inside, arrived);
            } else {
                planned.add(lines.move(child, element, inside, Lines.END));
            }
        }
    }

    private void planAttributes(EObject element) {
        for (Feature feature : profile.features(element.eClass()).values()) {
            if (feature.kind() != Kind.ATTRIBUTE || !element.eIsSet(feature.ecore())) {
                continue;
            }
            List<?> values = ModelText.list(element, feature);
            if (feature.isMany()) {
                planValues(element, feature, 0, values);
            } else {
                values.forEach(it -> planned.add(lines.set(element, feature, it)));
            }
        }
    }

    /** Deletes an element that isn't in the resource any more. What it contains may be, by a place at the root, and comes to the freed ones. */
    private void planDeletion(EObject element, List<EObject> freed) {
        List<EObject> gone = new ArrayList<>();
        List<EObject> kept = new ArrayList<>();
        part(element, gone, kept);
        kept.forEach(it -> planned.add(lines.move(it, null, null, Lines.END)));
        planned.add(lines.delete(element));
        freed.addAll(kept);
        for (EObject inside : gone) {
            String id = ids.id(inside);
            links.forget(inside);
            ids.remove(inside);
            idsBefore.push(() -> ids.put(inside, id));
        }
    }

    private void part(EObject element, List<EObject> gone, List<EObject> kept) {
        gone.add(element);
        for (EObject child : ModelText.children(profile, element)) {
            if (ModelText.isIn(resource, child)) {
                kept.add(child);
            } else {
                part(child, gone, kept);
            }
        }
    }

    private static List<EObject> elements(Object value) {
        Collection<?> values = value instanceof Collection<?> many ? many : value == null ? List.of() : List.of(value);
        return values.stream().filter(EObject.class::isInstance).map(EObject.class::cast).toList();
    }
}
