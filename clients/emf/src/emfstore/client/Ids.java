package emfstore.client;

import java.util.Collection;
import java.util.HashMap;
import java.util.IdentityHashMap;
import java.util.Map;
import java.util.WeakHashMap;
import org.eclipse.emf.ecore.EObject;
import org.eclipse.emf.ecore.resource.Resource;
import org.eclipse.emf.ecore.util.EcoreUtil;
import org.eclipse.emf.ecore.xmi.XMLResource;

/** The elements that have an id in the store, and these ids. */
final class Ids {
    private final Map<EObject, String> ids = new IdentityHashMap<>();
    private final Map<String, EObject> elements = new HashMap<>();
    /** The ids of elements that are gone, which they get again where they come back. */
    private final Map<EObject, String> before = new WeakHashMap<>();

    /** Whether the program takes the text as an id. */
    static boolean isId(String text) {
        return text != null && text.matches("[\\x21-\\x7E&&[^\"\\\\/#]][\\x21-\\x7E&&[^\"\\\\]]{0,127}");
    }

    String id(EObject element) {
        return ids.get(element);
    }

    EObject element(String id) {
        return elements.get(id);
    }

    Collection<EObject> elements() {
        return elements.values();
    }

    void put(EObject element, String id) {
        ids.put(element, id);
        elements.put(id, element);
    }

    void remove(EObject element) {
        before.put(element, ids.remove(element));
        elements.remove(before.get(element));
    }

    /** Gives an element its `xmi:id`, or the id that it had before, where the program takes it and no other element has it. Else it is a new one. */
    void name(EObject element) {
        String own = own(element) == null ? before.get(element) : own(element);
        put(element, isId(own) && !elements.containsKey(own) ? own : EcoreUtil.generateUUID());
    }

    /** The `xmi:id` of an element, or null. */
    static String own(EObject element) {
        Resource resource = element.eResource();
        return resource instanceof XMLResource file ? file.getID(element) : null;
    }
}
