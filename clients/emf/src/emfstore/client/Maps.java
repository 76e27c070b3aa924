package emfstore.client;

import emfstore.client.Profile.Feature;
import emfstore.client.Profile.Kind;
import java.util.ArrayList;
import java.util.HashSet;
import java.util.List;
import java.util.Map;
import java.util.Objects;
import java.util.Set;
import org.eclipse.emf.common.util.BasicEMap;
import org.eclipse.emf.common.util.EMap;
import org.eclipse.emf.ecore.EObject;
import org.eclipse.emf.ecore.EStructuralFeature;

/** EMF's maps, which are lists of entries and find them by a hash of the key that they keep. */
final class Maps {
    private static final String ENTRY = "java.util.Map$Entry";

    private Maps() {
    }

    /** Whether a feature holds the entries of a map. */
    static boolean isMap(EStructuralFeature feature) {
        return feature.isMany() && feature.getEType() != null && ENTRY.equals(feature.getEType().getInstanceClassName());
    }

    /** Puts the entries anew whose key isn't the one by which they were put, and gives the keys that several entries have. */
    static List<Object> mend(Profile profile, EObject element) {
        List<Object> twice = new ArrayList<>();
        for (Feature feature : profile.features(element.eClass()).values()) {
            if (feature.kind() == Kind.CONTAINMENT && isMap(feature.ecore()) && element.eGet(feature.ecore()) instanceof EMap<?, ?> map) {
                mend(map);
                Set<Object> keys = new HashSet<>();
                map.stream().map(Map.Entry::getKey).filter(it -> !keys.add(it)).forEach(twice::add);
            }
        }
        return twice;
    }

    private static <K, V> void mend(EMap<K, V> map) {
        for (int i = 0; i < map.size(); i++) {
            if (map.get(i) instanceof BasicEMap.Entry<K, V> entry && entry.getHash() != Objects.hashCode(entry.getKey())) {
                map.remove(i);
                entry.setHash(-1);
                map.add(i, entry);
            }
        }
    }
}
