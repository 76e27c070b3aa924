package emfstore.client;

import java.util.ArrayList;
import java.util.List;
import org.eclipse.emf.ecore.EObject;
import org.eclipse.emf.ecore.EReference;
import org.eclipse.emf.ecore.EStructuralFeature;
import org.eclipse.emf.ecore.util.EcoreUtil;
import org.eclipse.emf.ecore.xmi.XMLResource;

/**
 * Gives the elements of a resource the ids of those of another one that stand at the same path: in the same feature of the same element, of the same
 * class, with the same name if they have one, or else in the same order. All others get new ids.
 */
final class Paths {
    private final XMLResource live;
    private final XMLResource wanted;

    Paths(XMLResource live, XMLResource wanted) {
        this.live = live;
        this.wanted = wanted;
    }

    void name() {
        pair(new ArrayList<>(live.getContents()), wanted.getContents());
    }

    private void pair(List<EObject> found, List<EObject> elements) {
        for (EObject element : elements) {
            EObject like = like(found, element);
            found.remove(like);
            wanted.setID(element, like == null ? EcoreUtil.generateUUID() : live.getID(like));
            for (EReference reference : element.eClass().getEAllContainments()) {
                pair(like == null ? new ArrayList<>() : inside(like, reference), inside(element, reference));
            }
        }
    }

    /** The first that is left of the element's class and name, or else of its class where the element has no name. */
    private static EObject like(List<EObject> found, EObject element) {
        EStructuralFeature name = element.eClass().getEStructuralFeature("name");
        boolean isNamed = name != null && !name.isMany() && element.eIsSet(name);
        return found.stream().filter(it -> it.eClass() == element.eClass()).filter(it -> !isNamed || element.eGet(name).equals(it.eGet(name)))
                .findFirst().orElse(null);
    }

    private static List<EObject> inside(EObject element, EReference reference) {
        List<EObject> found = new ArrayList<>();
        if (reference.isMany()) {
            ((List<?>) element.eGet(reference)).forEach(it -> found.add((EObject) it));
        } else if (element.eGet(reference) != null) {
            found.add((EObject) element.eGet(reference));
        }
        return found;
    }
}
