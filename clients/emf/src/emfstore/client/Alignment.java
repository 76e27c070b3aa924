package emfstore.client;

import java.util.ArrayList;
import java.util.HashMap;
import java.util.HashSet;
import java.util.IdentityHashMap;
import java.util.List;
import java.util.Map;
import java.util.Objects;
import java.util.Set;
import org.eclipse.emf.common.util.EList;
import org.eclipse.emf.common.util.TreeIterator;
import org.eclipse.emf.ecore.EObject;
import org.eclipse.emf.ecore.EReference;
import org.eclipse.emf.ecore.EStructuralFeature;
import org.eclipse.emf.ecore.util.EcoreUtil;
import org.eclipse.emf.ecore.xmi.XMLResource;

/**
 * Edits a resource until it has what another one has. Elements of one id and class are the same; each difference is an edit of the first resource, so a
 * {@link Recorder} records creations, moves, values, links, orders and deletions, and nothing else.
 */
final class Alignment {
    private final XMLResource live;
    private final XMLResource wanted;
    /** The elements of the first resource that stand for those of the other one. */
    private final Map<EObject, EObject> same = new IdentityHashMap<>();
    private final Set<EObject> kept = new HashSet<>();

    private Alignment(XMLResource live, XMLResource wanted) {
        this.live = live;
        this.wanted = wanted;
    }

    /** Edits the first resource. Elements of the other one that have no id are taken for those at their path in the first one. */
    static void align(XMLResource live, XMLResource wanted) {
        new Alignment(live, wanted).run();
    }

    private void run() {
        match();
        List<EObject> roots = wanted.getContents();
        place(live.getContents(), roots);
        for (TreeIterator<EObject> all = wanted.getAllContents(); all.hasNext(); ) {
            placeInside(all.next());
        }
        remove();
        forEach(this::setAttributes);
        forEach(this::setLinks);
        forEach(this::setLinks);
    }

    private void forEach(java.util.function.Consumer<EObject> act) {
        wanted.getAllContents().forEachRemaining(act);
    }

    /** Finds what is the same, and makes what isn't there. */
    private void match() {
        Map<String, EObject> byId = new HashMap<>();
        live.getAllContents().forEachRemaining(it -> byId.put(live.getID(it), it));
        forEach(it -> {
            EObject found = byId.get(wanted.getID(it));
            if (found == null || found.eClass() != it.eClass()) {
                found = EcoreUtil.create(it.eClass());
                live.setID(found, wanted.getID(it));
            }
            same.put(it, found);
            kept.add(found);
        });
    }

    private void placeInside(EObject element) {
        for (EReference reference : element.eClass().getEAllContainments()) {
            if (!isPlain(reference)) {
                continue;
            }
            if (reference.isMany()) {
                place(list(same.get(element), reference), list(element, reference));
            } else {
                EObject inside = same.get((EObject) element.eGet(reference));
                if (inside != null && same.get(element).eGet(reference) != inside) {
                    same.get(element).eSet(reference, inside);
                }
            }
        }
    }

    /** Has a list begin with what stands for the elements, in their order. What else is in it comes after them. */
    private void place(List<EObject> list, List<EObject> elements) {
        EList<EObject> found = (EList<EObject>) list;
        int at = 0;
        for (EObject element : elements) {
            EObject it = same.get(element);
            if (at < found.size() && found.get(at) == it) {
                at++;
                continue;
            }
            int from = found.indexOf(it);
            if (from < 0) {
                found.add(at, it);
            } else {
                found.move(at, from);
            }
            at++;
        }
    }

    /** Deletes what the other resource doesn't have; all that it has is outside of these by now. */
    private void remove() {
        List<EObject> gone = new ArrayList<>();
        for (TreeIterator<EObject> all = live.getAllContents(); all.hasNext(); ) {
            EObject it = all.next();
            if (!kept.contains(it)) {
                gone.add(it);
                all.prune();
            }
        }
        gone.forEach(EcoreUtil::remove);
    }

    private void setAttributes(EObject element) {
        EObject own = same.get(element);
        for (EStructuralFeature feature : element.eClass().getEAllAttributes()) {
            if (!isPlain(feature) || Objects.equals(own.eGet(feature), element.eGet(feature)) && own.eIsSet(feature) == element.eIsSet(feature)) {
                continue;
            }
            if (!element.eIsSet(feature)) {
                own.eUnset(feature);
            } else if (feature.isMany()) {
                setValues(values(own, feature), values(element, feature));
            } else {
                own.eSet(feature, element.eGet(feature));
            }
        }
    }

    /** Changes just the values between those that both lists begin with and those that both end with. */
    private static void setValues(EList<Object> found, List<Object> wanted) {
        int first = 0;
        while (first < found.size() && first < wanted.size() && Objects.equals(found.get(first), wanted.get(first))) {
            first++;
        }
        int last = 0;
        while (last < found.size() - first && last < wanted.size() - first && Objects.equals(found.get(found.size() - 1 - last), wanted.get(wanted.size() - 1 - last))) {
            last++;
        }
        for (int at = found.size() - last - 1; at >= first; at--) {
            found.remove(at);
        }
        for (int at = first; at < wanted.size() - last; at++) {
            found.add(at, wanted.get(at));
        }
    }

    private void setLinks(EObject element) {
        EObject own = same.get(element);
        for (EReference reference : element.eClass().getEAllReferences()) {
            if (!isPlain(reference) || reference.isContainment() || reference.isContainer()) {
                continue;
            }
            if (reference.isMany()) {
                setTargets(list(own, reference), list(element, reference).stream().map(this::target).toList());
            } else {
                EObject target = target((EObject) element.eGet(reference));
                if (own.eGet(reference) != target) {
                    own.eSet(reference, target);
                }
            }
        }
    }

    private static void setTargets(List<EObject> list, List<EObject> targets) {
        EList<EObject> found = (EList<EObject>) list;
        found.removeIf(it -> !targets.contains(it));
        for (int at = 0; at < targets.size(); at++) {
            int from = found.indexOf(targets.get(at));
            if (from < 0) {
                found.add(Math.min(at, found.size()), targets.get(at));
            } else if (from != at) {
                found.move(at, from);
            }
        }
    }

    /** What stands for a target; one outside of the resource is itself. */
    private EObject target(EObject target) {
        return target == null ? null : same.getOrDefault(target, target);
    }

    private static boolean isPlain(EStructuralFeature feature) {
        return feature.isChangeable() && !feature.isDerived() && !feature.isTransient() && !feature.isVolatile();
    }

    @SuppressWarnings("unchecked")
    private static List<EObject> list(EObject element, EReference reference) {
        return (List<EObject>) element.eGet(reference);
    }

    @SuppressWarnings("unchecked")
    private static EList<Object> values(EObject element, EStructuralFeature feature) {
        return (EList<Object>) element.eGet(feature);
    }
}
