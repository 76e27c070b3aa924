package emfstore.client;

import emfstore.client.Conflict.Change;
import java.io.IOException;
import java.io.UncheckedIOException;
import java.lang.management.ManagementFactory;
import java.nio.file.Files;
import java.nio.file.Path;
import java.util.ArrayList;
import java.util.Arrays;
import java.util.List;
import java.util.Map;
import org.eclipse.emf.common.notify.Notification;
import org.eclipse.emf.common.util.EMap;
import org.eclipse.emf.common.util.URI;
import org.eclipse.emf.ecore.EDataType;
import org.eclipse.emf.ecore.EObject;
import org.eclipse.emf.ecore.resource.ResourceSet;
import org.eclipse.emf.ecore.resource.impl.ResourceSetImpl;
import org.eclipse.emf.ecore.util.EContentAdapter;
import org.eclipse.emf.ecore.util.EcoreUtil;
import org.eclipse.emf.ecore.xmi.XMLResource;

/** What a live resource goes through: it is unloaded and loaded, its program is killed, others change its model, and their changes conflict. */
final class LifeTest extends Fixture {
    private static final int CHILDREN = 8_000;
    private static final int PARTS = 8;

    private final Metamodels metamodels;
    private final Profile profile;

    LifeTest(Path program, Path folder, Path tests) throws IOException {
        super(program, folder, tests);
        metamodels = new Metamodels(List.of(kinds));
        profile = new Profile(metamodels.packages());
    }

    void run() throws IOException {
        reloads();
        takenUp();
        maps();
        conflictOfUpdate();
        conflictOfMerge();
        conflictsOfMerge();
        calls();
        recordedTwice();
        refusingSetter();
        byUri();
        moves();
        steps();
        manyChildren();
    }

    /** To unload a resource, and to load it again, records nothing; what is edited then is recorded. */
    private void reloads() throws IOException {
        XMLResource live = metamodels.create(folder.resolve("reloaded.xmi").toString());
        try (Store store = start(profile); Recorder recorder = Recorder.checkout(store, profile, "trunk", live)) {
            EObject node = create(profile, "Node", "outer");
            list(node, "nodes").add(create(profile, "Node", "inner"));
            live.getContents().add(node);
            live.save(Map.of());
            set(node, "name", "after the save");
            List<String> changes = store.send("changes 1").data();
            String text = recorder.text();
            live.unload();
            check(store.send("changes 1").data().equals(changes), "an unload is recorded");
            live.load(Map.of());
            check(store.send("changes 1").data().equals(changes), "a reload is recorded");
            check(recorder.text().equals(text), "after a reload the resource is " + recorder.text());
            set(live.getContents().get(0), "name", "after the reload");
            check(recorder.workspace().show().equals(recorder.text()), "an edit after a reload isn't recorded");
            live.unload();
            checkRefused(0, () -> live.getContents().add(create(profile, "Node", "into the unloaded")));
            check(recorder.workspace().show().equals(recorder.text()) && live.getContents().size() == 1, "an edit of an unloaded resource is left");
            live.unload();
            recorder.workspace().undo();
            live.load(Map.of());
            check(recorder.text().equals(text), "an undo while it is unloaded isn't seen");
        }
        tell("unloaded and reloaded");
    }

    /** After a kill a workspace is taken up again, with all that was recorded, and its composite ended or undone. */
    private void takenUp() throws IOException {
        Path place;
        String text;
        String ofComposite;
        try (Store store = start(profile); Recorder recorder = Recorder.checkout(store, profile, "trunk", metamodels.create("killed.xmi"))) {
            place = store.folder();
            recorder.resource().getContents().add(create(profile, "Node", "kept"));
            text = recorder.text();
            recorder.workspace().begin("half");
            recorder.resource().getContents().add(create(profile, "Node", "half"));
            ofComposite = recorder.text();
            store.kill();
            try {
                set(recorder.resource().getContents().get(0), "name", "too late");
                throw new AssertionError("a change without a program");
            } catch (EndedException ended) {
                check(!recorder.text().equals(ofComposite), "a change that can't be recorded is lost");
            }
        }
        Path copy = Files.createDirectory(folder.resolve("copy"));
        Files.copy(place.resolve(Store.JOURNAL), copy.resolve(Store.JOURNAL));
        XMLResource again = metamodels.create("again.xmi");
        try (Store store = new Store(program, place); Recorder recorder = Recorder.open(store, profile, 1, again)) {
            check(recorder.text().equals(ofComposite), "what a composite has is lost");
            set(again.getContents().get(0), "name", "edited again");
            check(recorder.workspace().show().equals(recorder.text()), "an edit isn't recorded again");
            recorder.commit("taken up");
        }
        XMLResource undone = metamodels.create("undone.xmi");
        try (Store store = new Store(program, copy);
                Recorder recorder = Recorder.open(store, profile, 1, undone, Recorder.OpenComposite.UNDO)) {
            check(recorder.text().equals(text), "a composite is left");
            recorder.commit("without the half");
            checkRefused(5, () -> Recorder.open(store, profile, 2, metamodels.create("none.xmi")));
        }
        tell("taken up after a kill");
    }

    /** Of a map that others changed the keys are found, and a key of both sides is told. */
    private void maps() throws IOException {
        XMLResource ofAnn = metamodels.create("ann's map.xmi");
        XMLResource ofBen = metamodels.create("ben's map.xmi");
        try (Store store = start(profile); Recorder ann = Recorder.checkout(store, profile, "trunk", ofAnn)) {
            ofAnn.getContents().add(create(profile, "Node", "node"));
            ann.commit("a node");
            Recorder ben = Recorder.checkout(store, profile, "trunk", ofBen);
            map(ofAnn).put("k1", ofAnn.getContents().get(0));
            map(ofAnn).put("k2", ofAnn.getContents().get(0));
            ann.commit("two keys");
            ben.update(Choice.MINE);
            check(map(ofBen).get("k1") == ofBen.getContents().get(0) && map(ofBen).containsKey("k2"), "keys aren't found");
            set((EObject) map(ofAnn).get(0), "key", "k3");
            ann.commit("another key");
            ben.update(Choice.MINE);
            check(map(ofBen).get("k3") == ofBen.getContents().get(0) && map(ofBen).get("k1") == null, "a new key isn't found");
            check(ofBen.getWarnings().isEmpty(), "warnings: " + ofBen.getWarnings());
            map(ofAnn).put("k4", ofAnn.getContents().get(0));
            ann.commit("her k4");
            map(ofBen).put("k4", ofBen.getContents().get(0));
            ben.update(Choice.MINE);
            check(ofBen.getWarnings().size() == 1 && ofBen.getWarnings().get(0).getMessage().contains("the key k4"), "both sides' key isn't told");
        }
        tell("maps");
    }

    @SuppressWarnings("unchecked")
    private static EMap<String, EObject> map(XMLResource resource) {
        return (EMap<String, EObject>) get(resource.getContents().get(0), "entries");
    }

    /** A conflict tells both sides by element and feature; one that isn't chosen is an error, and changes nothing. */
    private void conflictOfUpdate() throws IOException {
        XMLResource ofAnn = metamodels.create("ann's update.xmi");
        XMLResource ofBen = metamodels.create("ben's update.xmi");
        try (Store store = start(profile); Recorder ann = Recorder.checkout(store, profile, "trunk", ofAnn)) {
            EObject outer = create(profile, "Node", "outer");
            list(outer, "nodes").add(create(profile, "Node", "inner"));
            ofAnn.getContents().add(outer);
            ann.commit("two nodes");
            Recorder ben = Recorder.checkout(store, profile, "trunk", ofBen);
            set(outer, "gr\u00f6\u00dfe", 8);
            ann.commit("hers before");
            set(list(outer, "nodes").get(0), "name", "Ann's");
            ann.commit("hers");
            set(list(ofBen.getContents().get(0), "nodes").get(0), "name", "Ben's");
            List<String> changes = store.send("changes 2").data();
            checkRefused(0, () -> ben.update(conflict -> null));
            check(store.send("changes 2").data().equals(changes), "without a choice something is changed");
            List<Conflict> told = new ArrayList<>();
            ben.update(conflict -> {
                told.add(conflict);
                return Choice.MINE;
            });
            String id = ben.id(list(ofBen.getContents().get(0), "nodes").get(0));
            Change wanted = new Change(id, "Ben's", "outer/Ben's", "name", "\"inner\"", "\"Ann's\"", "\"Ben's\"");
            check(told.size() == 1 && told.get(0).changes().equals(List.of(wanted)), "another conflict: " + told);
            Operation theirs = new Operation(2, "attribute", null, List.of(new Step.Put(id, "name", "\"inner\"", "\"Ann's\"")));
            Operation mine = new Operation(1, "attribute", null, List.of(new Step.Put(id, "name", "\"inner\"", "\"Ben's\"")));
            check(told.get(0).theirs().equals(List.of(theirs)) && told.get(0).mine().equals(List.of(mine)), "other operations: " + told);
        }
        tell("a conflict of an update");
    }

    /** The same of a merge, of which nothing is left in the store where it isn't made. */
    private void conflictOfMerge() throws IOException {
        XMLResource ofAnn = metamodels.create("ann's merge.xmi");
        XMLResource ofBen = metamodels.create("ben's merge.xmi");
        try (Store store = start(profile); Recorder ann = Recorder.checkout(store, profile, "trunk", ofAnn)) {
            EObject node = create(profile, "Node", "first");
            ofAnn.getContents().add(node);
            ann.commit("a node");
            Recorder ben = Recorder.checkout(store, profile, "trunk", ofBen);
            ben.workspace().branch("dev");
            set(ofBen.getContents().get(0), "gr\u00f6\u00dfe", 8);
            ben.commit("his before");
            ofBen.getContents().add(create(profile, "Node", "his"));
            set(ofBen.getContents().get(0), "name", "Ben's");
            list(ofBen.getContents().get(0), "friends").add(ofBen.getContents().get(1));
            ben.commit("his");
            ofAnn.getContents().add(create(profile, "Node", "hers"));
            set(node, "name", "between");
            set(node, "name", "Ann's");
            ann.commit("hers");
            ofAnn.getContents().add(create(profile, "Node", "local"));
            Path journal = store.folder().resolve(Store.JOURNAL);
            byte[] before = Files.readAllBytes(journal);
            List<Conflict> told = new ArrayList<>();
            checkRefused(0, () -> ann.merge("dev", conflict -> {
                told.add(conflict);
                return null;
            }));
            check(Arrays.equals(before, Files.readAllBytes(journal)), "a merge that isn't made leaves something in the store");
            String id = ann.id(node);
            Change wanted = new Change(id, "Ann's", "Ann's", "name", "\"first\"", "\"Ben's\"", "\"Ann's\"");
            check(told.size() == 1 && told.get(0).changes().equals(List.of(wanted)), "another conflict: " + told);
            Operation theirs = new Operation(3, "attribute", null, List.of(new Step.Put(id, "name", "\"first\"", "\"Ben's\"")));
            check(told.get(0).theirs().equals(List.of(theirs)), "their operations: " + told);
            check(told.get(0).mine().get(0).steps().equals(List.of(new Step.Put(id, "name", "\"first\"", "\"Ann's\""))), "my operations: " + told);
            ann.merge("dev", conflict -> Choice.THEIRS);
            check(get(node, "name").equals("Ben's") && recorder(ann), "theirs isn't there");
            ann.commit("merged");
            set(ofBen.getContents().get(0), "name", "Ben's again");
            ben.commit("again");
            set(node, "name", "Ann's again");
            told.clear();
            ann.merge("dev", conflict -> {
                told.add(conflict);
                return Choice.MINE;
            });
            Change again = new Change(id, "Ann's again", "Ann's again", "name", "\"Ben's\"", "\"Ben's again\"", "\"Ann's again\"");
            check(told.size() == 1 && told.get(0).changes().equals(List.of(again)), "another conflict of the second merge: " + told);
        }
        tell("two conflicts of merges");
    }

    /** Two conflicts of one merge, whose operations stand on the two sides in another order and among others: each has its own. */
    private void conflictsOfMerge() throws IOException {
        XMLResource ofAnn = metamodels.create("ann's merges.xmi");
        XMLResource ofBen = metamodels.create("ben's merges.xmi");
        try (Store store = start(profile); Recorder ann = Recorder.checkout(store, profile, "trunk", ofAnn)) {
            ofAnn.getContents().addAll(List.of(create(profile, "Node", "one"), create(profile, "Node", "two")));
            ann.commit("two nodes");
            Recorder ben = Recorder.checkout(store, profile, "trunk", ofBen);
            ben.workspace().branch("dev");
            set(ofBen.getContents().get(0), "name", "Ben's one");
            set(ofBen.getContents().get(1), "name", "Ben's two");
            ben.commit("his");
            set(ofAnn.getContents().get(1), "name", "Ann's two");
            ann.commit("hers");
            set(ofAnn.getContents().get(1), "gr\u00f6\u00dfe", 9);
            ann.composite("both", () -> {
                set(ofAnn.getContents().get(0), "gr\u00f6\u00dfe", 9);
                set(ofAnn.getContents().get(0), "name", "Ann's one");
            });
            List<Conflict> told = new ArrayList<>();
            ann.merge("dev", conflict -> {
                told.add(conflict);
                return conflict.number() == 1 ? Choice.MINE : Choice.THEIRS;
            });
            String one = ann.id(ofAnn.getContents().get(0));
            String two = ann.id(ofAnn.getContents().get(1));
            check(told.size() == 2, "other conflicts: " + told);
            check(told.get(0).theirs().get(0).steps().equals(List.of(new Step.Put(one, "name", "\"one\"", "\"Ben's one\""))), "theirs: " + told);
            check(told.get(0).mine().get(0).name().equals("both") && told.get(0).mine().get(0).steps().equals(List.of(
                    new Step.Put(one, "gr__e", null, "9"), new Step.Put(one, "name", "\"one\"", "\"Ann's one\""))), "my composite: " + told);
            check(told.get(1).mine().get(0).steps().equals(List.of(new Step.Put(two, "name", "\"two\"", "\"Ann's two\""))), "mine: " + told);
            List<Object> names = ofAnn.getContents().stream().map(it -> get(it, "name")).toList();
            check(names.equals(List.of("Ann's one", "Ben's two")), "other sides: " + names);
        }
    }

    private static boolean recorder(Recorder recorder) {
        return recorder.workspace().show().equals(recorder.text());
    }

    /** Each call of a workspace, which its resource follows. */
    private void calls() throws IOException {
        XMLResource live = metamodels.create("calls.xmi");
        try (Store store = start(profile); Recorder recorder = Recorder.checkout(store, profile, "trunk", live)) {
            Workspace workspace = recorder.workspace();
            check(workspace.number() == 1 && workspace.changes().isEmpty(), "another workspace");
            live.getContents().add(create(profile, "Node", "one"));
            int first = recorder.commit("one");
            set(live.getContents().get(0), "name", "two");
            set(live.getContents().get(0), "name", "three");
            workspace.undo();
            check(get(live.getContents().get(0), "name").equals("two"), "the undo isn't seen");
            set(live.getContents().get(0), "name", "four");
            workspace.tidy();
            check(workspace.changes().size() == 1, "not tidied: " + workspace.changes());
            workspace.discard();
            check(get(live.getContents().get(0), "name").equals("one"), "the discard isn't seen");
            set(live.getContents().get(0), "name", "five");
            int second = recorder.commit("five");
            workspace.revert(second);
            check(get(live.getContents().get(0), "name").equals("one"), "the revert isn't seen");
            workspace.discard();
            String hex = store.send("package " + second).data().stream().filter(it -> it.startsWith("hex ")).findFirst().orElseThrow().substring(4);
            Workspace other = Workspace.checkout(store, String.valueOf(first));
            other.load(hex);
            check(other.show().equals(workspace.show()), "a package is loaded otherwise");
            other.branch("dev");
            other.begin("none");
            other.end();
            check(other.validate().isEmpty(), "lower bounds: " + other.validate());
            other.commit("on dev");
            check(store.log().size() == 4 && store.log().get(3).branch().equals("dev"), "another log: " + store.log());
            other.drop();
            checkRefused(5, other::show);
        }
        tell("the calls of a workspace");
    }

    /** A resource is recorded once at a time. */
    private void recordedTwice() throws IOException {
        XMLResource live = metamodels.create("twice.xmi");
        try (Store store = start(profile); Recorder recorder = Recorder.checkout(store, profile, "trunk", live)) {
            List<Runnable> calls = List.of(() -> Recorder.checkout(store, profile, "trunk", live), () -> Recorder.open(store, profile, 1, live));
            for (Runnable again : calls) {
                try {
                    again.run();
                    throw new AssertionError("recorded twice");
                } catch (IllegalStateException recorded) {
                    check(recorder(recorder), "another model");
                }
            }
            checkRefused(5, () -> store.send("show 2"));
        }
    }

    /** What a setter of the model refuses is told among the errors; the rest is there, and the store keeps what it has. */
    private void refusingSetter() throws IOException {
        Metamodels parts = new Metamodels(List.of(beside("parts.ecore")));
        Part.bind(parts.packages().get(0));
        Profile ofParts = new Profile(parts.packages());
        XMLResource live = parts.create("parts.xmi");
        try (Store store = start(ofParts)) {
            store.send("checkout 0");
            store.send("import 1", "[{\"eClass\":\"//Part\",\"_id\":\"a\",\"label\":\"" + Part.REFUSED + "\",\"count\":4},"
                    + "{\"eClass\":\"//Part\",\"_id\":\"b\"}]");
            String text = store.send("show 1").data().get(0);
            Recorder recorder = Recorder.open(store, ofParts, 1, live);
            check(live.getErrors().size() == 1 && live.getErrors().get(0).getMessage().startsWith("Part a"), "errors: " + live.getErrors());
            check(live.getContents().size() == 2 && get(live.getContents().get(0), "count").equals(4), "the rest isn't there");
            check(store.send("show 1").data().equals(List.of(text)), "the store has another model");
            set(live.getContents().get(0), "label", "taken");
            recorder.show();
            check(live.getErrors().isEmpty() && recorder(recorder), "an error is left: " + live.getErrors());
        }
        tell("a setter that throws");
    }

    /** A resource by its URI: `load` checks out and then takes up, `save` commits where anything is recorded and the branch isn't ahead. */
    private void byUri() throws IOException {
        start(profile).close();
        Path place = folder.resolve("store" + stores);
        try (StoreResourceFactory factory = new StoreResourceFactory(program)) {
            ResourceSet set = new ResourceSetImpl();
            factory.register(set);
            set.getPackageRegistry().put("http://kinds/1", metamodels.packages().get(0));
            URI named = StoreResourceFactory.uri(place, "trunk");
            StoreResource live = (StoreResource) set.createResource(URI.createURI(named + "&packages=http://kinds/1"));
            live.load(null);
            check(live.getURI().toString().contains("?workspace=1&"), "the URI is " + live.getURI());
            live.getContents().add(create(profile, "Node", "by its URI"));
            String text = live.recorder().text();
            live.unload();
            check(live.recorder() == null && live.getContents().isEmpty(), "it isn't unloaded");
            live.load(null);
            check(live.recorder().text().equals(text), "it isn't taken up");
            live.save(Map.of(StoreResource.MESSAGE, "saved"));
            live.save(null);
            check(factory.store(place).log().size() == 2 && factory.store(place).log().get(1).message().equals("saved"), "another log");
            Workspace other = Workspace.checkout(factory.store(place), "trunk");
            factory.store(place).send("create " + other.number() + " Node / other");
            other.commit("ahead");
            set(live.getContents().get(0), "name", "behind");
            try {
                live.save(null);
                throw new AssertionError("saved behind the branch");
            } catch (IOException behind) {
                check(behind.getMessage().equals("the branch has later versions: update before"), "another message: " + behind.getMessage());
            }
            live.recorder().update(Choice.MINE);
            live.save(null);
            check(factory.store(place).log().size() == 4, "not saved after an update");
        }
        tell("a resource by its URI");
    }

    /** An element that an update moves is in the resource at each moment, so that no adapter takes it for deleted. */
    private void moves() throws IOException {
        XMLResource ofAnn = metamodels.create("ann's moves.xmi");
        XMLResource ofBen = metamodels.create("ben's moves.xmi");
        try (Store store = start(profile); Recorder ann = Recorder.checkout(store, profile, "trunk", ofAnn)) {
            ofAnn.getContents().addAll(List.of(create(profile, "Node", "one"), create(profile, "Node", "two")));
            list(ofAnn.getContents().get(0), "nodes").add(create(profile, "Node", "moved"));
            ann.commit("before");
            Recorder ben = Recorder.checkout(store, profile, "trunk", ofBen);
            EObject moved = list(ofBen.getContents().get(0), "nodes").get(0);
            List<Notification> without = new ArrayList<>();
            ofBen.eAdapters().add(new EContentAdapter() {
                @Override
                public void notifyChanged(Notification notification) {
                    super.notifyChanged(notification);
                    if (moved.eResource() != ofBen) {
                        without.add(notification);
                    }
                }
            });
            list(ofAnn.getContents().get(1), "nodes").add(list(ofAnn.getContents().get(0), "nodes").get(0));
            ann.commit("after");
            ben.update(Choice.MINE);
            check(without.isEmpty() && moved.eContainer() == ofBen.getContents().get(1), "an element that is moved is taken out: " + without);
        }
    }

    /** An update whose steps have no ranks is taken step by step; the resource is then what a whole model makes of it. */
    private void steps() throws IOException {
        XMLResource ofAnn = metamodels.create("ann's steps.xmi");
        XMLResource ofBen = metamodels.create("ben's steps.xmi");
        Path written = Files.writeString(folder.resolve("written"), "#!/bin/sh\nsed -u 'w sent' | " + program + "\n");
        check(written.toFile().setExecutable(true), "no program that writes down what is sent");
        try (Store store = start(written, profile); Recorder ann = Recorder.checkout(store, profile, "trunk", ofAnn)) {
            EObject node = create(profile, "Node", "node");
            EObject values = create(profile, "Values", "values");
            ofAnn.getContents().addAll(List.of(node, values, create(profile, "Node", "third")));
            list(node, "nodes").addAll(List.of(create(profile, "Node", "c1"), create(profile, "Node", "c2")));
            list(node, "friends").addAll(List.of(values, node));
            list(values, "tags").addAll(strings("p", "q", "r"));
            ann.commit("some nodes");
            Recorder ben = Recorder.checkout(store, profile, "trunk", ofBen);
            EDataType colour = (EDataType) values.eClass().getEStructuralFeature("colour").getEType();
            List<Runnable> edits = List.of(
                    () -> set(node, "name", "another"),
                    () -> node.eUnset(node.eClass().getEStructuralFeature("name")),
                    () -> list(values, "tags").addAll(1, strings("s")),
                    () -> list(values, "tags").move(0, 2),
                    () -> list(values, "tags").remove(1),
                    () -> set(values, "colour", EcoreUtil.createFromString(colour, "red")),
                    () -> set(node, "friend", values),
                    () -> list(node, "friends").remove(values),
                    () -> EcoreUtil.delete(list(node, "nodes").get(0), true),
                    () -> EcoreUtil.delete(values, true));
            for (int i = 0; i < edits.size(); i++) {
                edits.get(i).run();
                ann.commit("edit " + i);
                long shows = shows(store);
                ben.workspace().update(Choice.MINE);
                check(shows(store) == shows, "edit " + i + " is taken by showing the whole model");
                check(recorder(ben) && ben.text().equals(ann.text()), "edit " + i + " comes out otherwise");
                set(ofBen.getContents().get(0), "gr\u00f6\u00dfe", 20 + i);
                list(ofBen.getContents().get(0), "friends").add(ofBen.getContents().get(ofBen.getContents().size() - 1));
                check(recorder(ben), "an edit after edit " + i + " comes out otherwise");
                ben.workspace().discard();
            }
            list(node, "nodes").add(create(profile, "Node", "last"));
            ann.commit("by rank");
            ben.workspace().update(Choice.MINE);
            check(recorder(ben) && ben.text().equals(ann.text()), "an element by its rank comes out otherwise");
        }
        tell("an update step by step");
    }

    /** How many times the whole model was asked for, by the lines that were sent. */
    private static long shows(Store store) {
        try {
            return Files.readAllLines(store.folder().resolve("sent")).stream().filter(it -> it.startsWith("show ")).count();
        } catch (IOException fault) {
            throw new UncheckedIOException(fault);
        }
    }

    @SuppressWarnings("unchecked")
    private static List<EObject> strings(String... values) {
        return (List<EObject>) (List<?>) List.of(values);
    }

    /** Many children in one call cost what they cost in several. */
    private void manyChildren() throws IOException {
        long several = 0;
        long one = 0;
        for (int round = 0; round < 2; round++) {
            several = time(PARTS);
            one = time(1);
        }
        check(one < 3 * several, CHILDREN + " children in one call take " + one + " ms, in " + PARTS + " calls " + several + " ms");
        tell(CHILDREN + " children in one call");
    }

    /** The milliseconds of this thread's processor that it takes to add the children in so many calls. */
    private long time(int calls) throws IOException {
        XMLResource live = metamodels.create("children.xmi");
        try (Store store = start(profile); Recorder recorder = Recorder.checkout(store, profile, "trunk", live)) {
            EObject node = create(profile, "Node", "node");
            live.getContents().add(node);
            long start = ManagementFactory.getThreadMXBean().getCurrentThreadCpuTime();
            for (int i = 0; i < calls; i++) {
                List<EObject> children = new ArrayList<>();
                for (int k = 0; k < CHILDREN / calls; k++) {
                    children.add(create(profile, "Node", "child"));
                }
                list(node, "nodes").addAll(children);
            }
            long took = (ManagementFactory.getThreadMXBean().getCurrentThreadCpuTime() - start) / 1_000_000;
            check(recorder(recorder), "the children come out otherwise");
            return took;
        }
    }
}
