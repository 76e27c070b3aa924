package emfstore.client;

import emfstore.client.Profile.Feature;
import emfstore.client.Profile.Kind;
import java.util.ArrayList;
import java.util.LinkedHashMap;
import java.util.List;
import java.util.Map;
import java.util.TreeMap;
import java.util.stream.Collectors;
import org.eclipse.emf.ecore.EReference;

/**
 * A model of the tests' own: items by id, with no EMF object in it and no line of the program. Values are JSON texts, targets and children ids. What
 * each edit does to it, opposites too, is written here anew.
 */
final class OwnModel {
    private static final class Item {
        private final String owner;
        private final Map<String, List<String>> held = new TreeMap<>();
        private String parent;
        private String place;

        private Item(String owner) {
            this.owner = owner;
        }

        private List<String> list(String feature) {
            return held.computeIfAbsent(feature, none -> new ArrayList<>());
        }
    }

    private final Profile profile;
    private final Map<String, Item> items = new LinkedHashMap<>();
    private final List<String> roots = new ArrayList<>();

    OwnModel(Profile profile) {
        this.profile = profile;
    }

    /** Becomes the model of a text that was printed. */
    void read(String text) {
        items.clear();
        roots.clear();
        Object all = Json.read(text);
        for (Object root : all instanceof List<?> many ? many : List.of(all)) {
            roots.add(read((Map<?, ?>) root, null, null));
        }
    }

    private String read(Map<?, ?> keys, String parent, String place) {
        String id = (String) keys.get("_id");
        Item item = new Item(((String) keys.get("eClass")).replaceFirst(".*#//", ""));
        item.parent = parent;
        item.place = place;
        items.put(id, item);
        for (Feature feature : features(item).values()) {
            Object held = keys.get(feature.name());
            for (Object value : held instanceof List<?> many ? many : held == null ? List.of() : List.of(held)) {
                String entry = switch (feature.kind()) {
                    case CONTAINMENT -> read((Map<?, ?>) value, id, feature.name());
                    case REFERENCE -> (String) ((Map<?, ?>) value).get("$ref");
                    default -> Json.write(value);
                };
                item.list(feature.name()).add(entry);
            }
        }
        return id;
    }

    /** The text as the program would print it. */
    String text() {
        return roots.size() == 1 ? text(roots.get(0)) : roots.stream().map(this::text).collect(Collectors.joining(",", "[", "]"));
    }

    private String text(String id) {
        Item item = items.get(id);
        Map<String, String> keys = new TreeMap<>(Map.of("_id", Json.quote(id), "eClass", Json.quote(profile.nsUri() + "#//" + item.owner)));
        item.held.forEach((name, entries) -> {
            Feature feature = features(item).get(name);
            List<String> parts = entries.stream().map(it -> switch (feature.kind()) {
                case CONTAINMENT -> text(it);
                case REFERENCE -> "{\"$ref\":" + Json.quote(it) + "}";
                default -> it;
            }).toList();
            if (!parts.isEmpty()) {
                keys.put(name, feature.isMany() ? "[" + String.join(",", parts) + "]" : parts.get(0));
            }
        });
        return keys.entrySet().stream().map(it -> Json.quote(it.getKey()) + ":" + it.getValue()).collect(Collectors.joining(",", "{", "}"));
    }

    List<String> ids() {
        return List.copyOf(items.keySet());
    }

    String owner(String id) {
        return items.get(id).owner;
    }

    List<String> held(String id, String feature) {
        return List.copyOf(items.get(id).list(feature));
    }

    boolean isInside(String id, String around) {
        return id != null && (id.equals(around) || isInside(items.get(id).parent, around));
    }

    void create(String id, String owner, String parent, String feature, int index) {
        items.put(id, new Item(owner));
        put(id, parent, feature, index);
    }

    void move(String id, String parent, String feature, int index) {
        place(items.get(id).parent, items.get(id).place).remove(id);
        put(id, parent, feature, index);
    }

    List<String> place(String parent, String feature) {
        return parent == null ? roots : items.get(parent).list(feature);
    }

    private void put(String id, String parent, String feature, int index) {
        place(parent, feature).add(index, id);
        items.get(id).parent = parent;
        items.get(id).place = feature;
    }

    /** Deletes an item with what is inside it, and all links to these. */
    void delete(String id) {
        List<String> gone = items.keySet().stream().filter(it -> isInside(it, id)).toList();
        place(items.get(id).parent, items.get(id).place).remove(id);
        gone.forEach(items::remove);
        for (Item item : items.values()) {
            features(item).values().stream().filter(it -> it.kind() == Kind.REFERENCE).forEach(it -> item.list(it.name()).removeAll(gone));
        }
    }

    void set(String id, String feature, List<String> values) {
        List<String> list = items.get(id).list(feature);
        list.clear();
        list.addAll(values);
    }

    void link(String id, String feature, String target, int index) {
        EReference opposite = opposite(id, feature);
        if (!features(items.get(id)).get(feature).isMany()) {
            held(id, feature).forEach(it -> unlink(id, feature, it));
        }
        if (opposite != null && !opposite.isMany()) {
            held(target, profile.feature(opposite).name()).forEach(it -> unlink(it, feature, target));
        }
        items.get(id).list(feature).add(Math.min(index, items.get(id).list(feature).size()), target);
        if (opposite != null) {
            items.get(target).list(profile.feature(opposite).name()).add(id);
        }
    }

    void unlink(String id, String feature, String target) {
        items.get(id).list(feature).remove(target);
        EReference opposite = opposite(id, feature);
        if (opposite != null) {
            items.get(target).list(profile.feature(opposite).name()).remove(id);
        }
    }

    private EReference opposite(String id, String feature) {
        return profile.opposite(features(items.get(id)).get(feature).reference());
    }

    private Map<String, Feature> features(Item item) {
        return profile.features(profile.classNamed(item.owner));
    }
}
