package emfstore.client;

import java.util.HashMap;
import java.util.List;
import java.util.Map;
import java.util.stream.Stream;

/** A model as the program prints it, by the ids of its elements. */
final class PrintedModel {
    private record Element(Map<?, ?> keys, String parent, String place) { }

    private static final List<String> NAMES = List.of("name", "label", "title");

    private final Map<String, Element> elements = new HashMap<>();

    PrintedModel(String text) {
        Object roots = Json.read(text);
        List<?> all = roots instanceof List<?> many ? many : List.of(roots);
        for (int i = 0; i < all.size(); i++) {
            add((Map<?, ?>) all.get(i), null, "/ " + i);
        }
    }

    boolean has(String id) {
        return elements.containsKey(id);
    }

    /** What a feature of an element holds, or for the feature null the place of the element; null where there is nothing. */
    String value(String id, String feature) {
        Element element = elements.get(id);
        if (element == null || feature == null) {
            return element == null ? null : element.place();
        }
        Object held = element.keys().get(feature);
        return held == null ? null : Json.write(held);
    }

    String label(String id) {
        Map<?, ?> keys = elements.get(id).keys();
        Stream<?> named = NAMES.stream().map(keys::get);
        Stream<?> other = keys.entrySet().stream().filter(it -> !it.getKey().equals("_id") && !it.getKey().equals("eClass")).map(Map.Entry::getValue);
        return Stream.concat(named, other).filter(String.class::isInstance).map(String.class::cast).filter(it -> !it.isEmpty()).findFirst()
                .orElseGet(() -> ((String) keys.get("eClass")).replaceFirst(".*#//", ""));
    }

    String path(String id) {
        String parent = elements.get(id).parent();
        return (parent == null ? "" : path(parent) + "/") + label(id);
    }

    private void add(Map<?, ?> keys, String parent, String place) {
        String id = (String) keys.get("_id");
        elements.put(id, new Element(keys, parent, place));
        keys.forEach((feature, value) -> {
            List<?> held = value instanceof List<?> many ? many : List.of(value);
            for (int i = 0; i < held.size(); i++) {
                if (held.get(i) instanceof Map<?, ?> child && child.containsKey("_id")) {
                    add(child, id, id + " " + feature + " " + i);
                }
            }
        });
    }
}
