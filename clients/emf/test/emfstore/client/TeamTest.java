package emfstore.client;

import emfstore.client.Profile.Feature;
import emfstore.client.Profile.Kind;
import java.io.IOException;
import java.nio.file.Path;
import java.util.ArrayList;
import java.util.Collections;
import java.util.List;
import java.util.Random;
import java.util.Set;
import org.eclipse.emf.common.util.EList;
import org.eclipse.emf.ecore.EClass;
import org.eclipse.emf.ecore.EDataType;
import org.eclipse.emf.ecore.EEnum;
import org.eclipse.emf.ecore.EObject;
import org.eclipse.emf.ecore.util.EcoreUtil;
import org.eclipse.emf.ecore.xmi.XMLResource;

/**
 * Four people edit at random over one store, two on trunk and two on a branch, and update, merge, undo and commit between. After each turn the
 * resource, the store's model and a model of the test's own are one text. What an update or a merge makes is the store's to say: the own model takes
 * it over, and each edit after that is its own again.
 */
final class TeamTest extends Fixture {
    private static final int EDITS_A_TURN = 12;
    private static final int MOST = 60;
    private static final int TRIES = 20;
    private static final int SELDOM = 300;
    private static final String BRANCH = "dev";
    /** The features of the metamodel of all kinds that the own model has: those that mean the same in EMF and in the store. */
    private static final Set<String> TRIED = Set.of("name", "gr__e", "flag", "whole", "colour", "tags", "numbers", "nodes", "values", "friend",
            "friends", "group", "members", "sees", "seen", "parts", "next", "before", "others", "label", "count");
    private static final List<String> TEXTS = List.of("a", "b c", "größe", "\"quoted\"", "back\\slash", "line\nfeed", "7");

    TeamTest(Path program, Path folder, Path tests) {
        super(program, folder, tests);
    }

    /** Half of the edits are of dynamic objects, by one seed, and half of objects of classes in Java, by the next. */
    void run(int edits, long seed) throws IOException {
        long start = System.nanoTime();
        Metamodels dynamic = new Metamodels(List.of(kinds));
        run(new Profile(dynamic.packages()), dynamic, List.of("Node", "Values"), edits / 2, seed);
        Metamodels generated = new Metamodels(List.of(beside("parts.ecore")));
        Part.bind(generated.packages().get(0));
        run(new Profile(generated.packages()), generated, List.of("Part"), edits / 2, seed + 1);
        tell(edits + " edits of a team of four, seeds " + seed + " and " + (seed + 1) + ", in " + (System.nanoTime() - start) / 1_000_000_000 + " s");
    }

    private final class Person {
        private final Profile profile;
        private final List<String> classes;
        private final Random random;
        private final Store store;
        private final XMLResource live;
        private final Recorder recorder;
        private final OwnModel own;
        private final String letter;
        private int made;
        private int edits;

        Person(Profile profile, List<String> classes, Random random, Store store, XMLResource live, String spec, String letter) {
            this.profile = profile;
            this.classes = classes;
            this.random = random;
            this.store = store;
            this.live = live;
            this.letter = letter;
            recorder = Recorder.checkout(store, profile, spec, live);
            own = new OwnModel(profile);
            own.read(recorder.text());
        }

        void turn() {
            for (int i = 0; i < EDITS_A_TURN; i++) {
                edit();
            }
            if (random.nextInt(4) == 0) {
                recorder.composite("several", () -> {
                    for (int i = 0; i < EDITS_A_TURN; i++) {
                        edit();
                    }
                });
            }
            checkSame("after edits");
            if (random.nextInt(5) == 0) {
                String before = own.text();
                int count = recorder.workspace().changes().size();
                edit();
                if (recorder.workspace().changes().size() == count + 1) {
                    recorder.workspace().undo();
                    own.read(before);
                    checkSame("after an undo");
                }
            }
        }

        void checkSame(String when) {
            String shown = recorder.workspace().show();
            check(shown.equals(recorder.text()), letter + " " + when + ": the resource is\n" + recorder.text() + "\nand not\n" + shown);
            check(shown.equals(own.text()), letter + " " + when + ": the own model is\n" + own.text() + "\nand not\n" + shown);
        }

        /** What others did comes in, and then the own model is what the store's is. */
        void update() {
            switch (random.nextInt(16)) {
                case 0 -> recorder.update(conflict -> random.nextBoolean() ? Choice.MINE : Choice.THEIRS);
                default -> recorder.workspace().update(random.nextBoolean() ? Choice.MINE : Choice.THEIRS);
            }
            own.read(recorder.workspace().show());
            checkSame("after an update");
        }

        void merge(String branch) {
            switch (random.nextInt(4)) {
                case 0 -> recorder.merge(branch, conflict -> random.nextBoolean() ? Choice.MINE : Choice.THEIRS);
                default -> recorder.workspace().merge(branch, random.nextBoolean() ? Choice.MINE : Choice.THEIRS);
            }
            own.read(recorder.workspace().show());
            checkSame("after a merge");
        }

        private void edit() {
            edits++;
            List<String> ids = own.ids();
            while (ids.size() > MOST) {
                delete(one(ids));
                ids = own.ids();
            }
            int kind = random.nextInt(16);
            if (kind < 4 || ids.isEmpty()) {
                create();
            } else if (kind < 5) {
                delete(one(ids));
            } else if (kind < 7) {
                move(one(ids));
            } else {
                change(one(ids));
            }
        }

        private <T> T one(List<T> items) {
            return items.get(random.nextInt(items.size()));
        }

        private EObject object(String id) {
            return live.getEObject(id);
        }

        private void create() {
            String id = letter + made++;
            EObject created = EcoreUtil.create(profile.classNamed(one(classes)));
            live.setID(created, id);
            place(created, null, (parent, feature) -> own.create(id, profile.name(created.eClass()), parent, feature.name(), place(parent, feature)),
                    () -> own.create(id, profile.name(created.eClass()), null, null, live.getContents().size() - 1));
        }

        private int place(String parent, Feature feature) {
            return index;
        }

        /** Where the last element was put in a list. */
        private int index;

        private interface Placed {
            void in(String parent, Feature feature);
        }

        /** Puts an element into some parent that may hold it, and that isn't inside the one of an id; or at the end of the root. */
        private void place(EObject element, String around, Placed placed, Runnable atRoot) {
            List<String> ids = own.ids();
            for (int i = 0; i < TRIES && !ids.isEmpty(); i++) {
                String parent = one(ids);
                List<Feature> fitting = features(parent).stream()
                        .filter(it -> it.kind() == Kind.CONTAINMENT && it.reference().getEReferenceType().isInstance(element)).toList();
                if (!fitting.isEmpty() && !(around != null && own.isInside(parent, around))) {
                    Feature feature = one(fitting);
                    EList<Object> list = objects(object(parent), feature);
                    if (element.eContainer() == object(parent) && list.contains(element)) {
                        index = random.nextInt(list.size());
                        list.move(index, element);
                    } else {
                        index = random.nextInt(list.size() + 1);
                        list.add(index, element);
                    }
                    placed.in(parent, feature);
                    return;
                }
            }
            if (around == null) {
                live.getContents().add(element);
                atRoot.run();
            }
        }

        private void move(String id) {
            EObject element = object(id);
            if (element.eContainer() != null) {
                place(element, id, (parent, feature) -> own.move(id, parent, feature.name(), index), () -> { });
            } else {
                int to = random.nextInt(live.getContents().size());
                live.getContents().move(to, element);
                own.move(id, null, null, to);
            }
        }

        private void delete(String id) {
            EcoreUtil.delete(object(id), true);
            own.delete(id);
        }

        private void change(String id) {
            Feature feature = one(features(id).stream().filter(it -> it.kind() == Kind.ATTRIBUTE || it.kind() == Kind.REFERENCE).toList());
            EObject element = object(id);
            if (random.nextInt(8) == 0) {
                own.held(id, feature.name()).forEach(it -> {
                    if (feature.kind() == Kind.REFERENCE) {
                        own.unlink(id, feature.name(), it);
                    }
                });
                own.set(id, feature.name(), List.of());
                element.eUnset(feature.ecore());
            } else if (feature.kind() == Kind.ATTRIBUTE) {
                changeValues(id, element, feature);
            } else {
                changeTargets(id, element, feature);
            }
        }

        private void changeValues(String id, EObject element, Feature feature) {
            Object value = value(feature.attribute().getEAttributeType());
            if (!feature.isMany()) {
                element.eSet(feature.ecore(), value);
                boolean isDefault = value.equals(feature.ecore().getDefaultValue());
                own.set(id, feature.name(), isDefault ? List.of() : List.of(Values.json(feature.attribute(), value)));
                return;
            }
            EList<Object> list = objects(element, feature);
            List<String> held = new ArrayList<>(own.held(id, feature.name()));
            if (list.size() > 1 && random.nextInt(3) == 0) {
                int from = random.nextInt(list.size());
                int to = random.nextInt(list.size());
                list.move(to, from);
                held.add(to, held.remove(from));
            } else if (!list.isEmpty() && random.nextInt(3) == 0) {
                int at = random.nextInt(list.size());
                list.remove(at);
                held.remove(at);
            } else if (!feature.ecore().isUnique() || !list.contains(value)) {
                int at = random.nextInt(list.size() + 1);
                list.add(at, value);
                held.add(at, Values.json(feature.attribute(), value));
            }
            own.set(id, feature.name(), held);
        }

        private void changeTargets(String id, EObject element, Feature feature) {
            List<String> fitting = own.ids().stream()
                    .filter(it -> feature.reference().getEReferenceType().isInstance(object(it)) && !it.equals(id)).toList();
            if (fitting.isEmpty()) {
                return;
            }
            String target = one(fitting);
            if (!feature.isMany()) {
                if (!own.held(id, feature.name()).contains(target)) {
                    own.link(id, feature.name(), target, 0);
                }
                element.eSet(feature.ecore(), object(target));
                return;
            }
            EList<Object> list = objects(element, feature);
            List<String> held = new ArrayList<>(own.held(id, feature.name()));
            if (held.contains(target) && random.nextBoolean()) {
                list.remove(object(target));
                own.unlink(id, feature.name(), target);
            } else if (held.contains(target)) {
                int to = random.nextInt(list.size());
                list.move(to, object(target));
                held.remove(target);
                held.add(to, target);
                own.set(id, feature.name(), held);
            } else {
                int at = random.nextInt(list.size() + 1);
                list.add(at, object(target));
                own.link(id, feature.name(), target, at);
            }
        }

        private List<Feature> features(String id) {
            EClass owner = profile.classNamed(own.owner(id));
            return profile.features(owner).values().stream().filter(it -> TRIED.contains(it.name())).toList();
        }

        private Object value(EDataType type) {
            String text = switch (type.getName()) {
                case "EInt" -> String.valueOf(random.nextInt(9));
                case "EBoolean" -> String.valueOf(random.nextBoolean());
                case "EString" -> one(TEXTS);
                default -> one(((EEnum) type).getELiterals()).getLiteral();
            };
            return EcoreUtil.createFromString(type, text);
        }
    }

    private void run(Profile profile, Metamodels metamodels, List<String> classes, int edits, long seed) throws IOException {
        Random random = new Random(seed);
        try (Store store = start(profile)) {
            List<Person> team = new ArrayList<>();
            Person first = new Person(profile, classes, random, store, metamodels.create("a.xmi"), "trunk", "a");
            first.turn();
            first.recorder.commit("the first");
            team.add(first);
            team.add(new Person(profile, classes, random, store, metamodels.create("b.xmi"), "trunk", "b"));
            Person third = new Person(profile, classes, random, store, metamodels.create("c.xmi"), "trunk", "c");
            third.recorder.workspace().branch(BRANCH);
            third.turn();
            third.recorder.commit("a branch");
            team.add(third);
            team.add(new Person(profile, classes, random, store, metamodels.create("d.xmi"), BRANCH, "d"));
            while (team.stream().mapToInt(it -> it.edits).sum() < edits) {
                int who = random.nextInt(team.size());
                Person person = team.get(who);
                person.turn();
                if (random.nextInt(3) > 0) {
                    person.update();
                    // After merges both ways each side has the other's operations once more. So trunk merges the branch, and seldom otherwise.
                    if (random.nextInt(who < 2 ? 5 : SELDOM) == 0) {
                        person.merge(who < 2 ? BRANCH : "trunk");
                    }
                    commit(person.recorder, "a turn");
                    person.checkSame("after a commit");
                }
            }
            Collections.shuffle(team, random);
            for (int round = 0; round < 2; round++) {
                for (Person person : team) {
                    person.update();
                    commit(person.recorder, "the end");
                }
            }
            team.sort((one, other) -> one.letter.compareTo(other.letter));
            team.forEach(Person::update);
            tell(edits + " edits of " + classes + ", seed " + seed + ", " + store.log().size() + " versions");
            for (int i = 0; i < team.size(); i += 2) {
                check(team.get(i).own.text().equals(team.get(i + 1).own.text()), "two of one branch have other models");
                checkEqual(team.get(i).live, team.get(i + 1).live, "two of one branch");
            }
        }
    }

    @SuppressWarnings("unchecked")
    private static EList<Object> objects(EObject element, Feature feature) {
        return (EList<Object>) element.eGet(feature.ecore());
    }
}
