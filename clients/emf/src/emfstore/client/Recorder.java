package emfstore.client;

import emfstore.client.Profile.Kind;
import java.util.List;
import java.util.function.Function;
import org.eclipse.emf.common.notify.Notification;
import org.eclipse.emf.ecore.EObject;
import org.eclipse.emf.ecore.resource.Resource;
import org.eclipse.emf.ecore.util.EContentAdapter;

/**
 * Records each change of a live resource in a workspace of the store.
 *
 * <table>
 * <caption>What a notification sends. A place is the root or a containment; a container end and a skipped feature send nothing.</caption>
 * <tr><th>Notification</th><th>Lines</th></tr>
 * <tr><td>SET, UNSET of a single attribute</td><td>{@code set}, or {@code unset} where it isn't set now</td></tr>
 * <tr><td>ADD, ADD_MANY of a many-valued attribute</td><td>{@code add} for each value</td></tr>
 * <tr><td>REMOVE, REMOVE_MANY of one</td><td>{@code remove} for each value, the last first; {@code unset} where all go</td></tr>
 * <tr><td>MOVE of one</td><td>{@code shift}</td></tr>
 * <tr><td>SET of one, at an index</td><td>{@code remove}, {@code add}</td></tr>
 * <tr><td>any of a plain reference</td><td>{@code set}, {@code unset}, {@code link}, {@code unlink}, {@code reorder}: what makes the store's links
 * those of the element now</td></tr>
 * <tr><td>ADD, ADD_MANY, SET of a place, an element from outside</td><td>{@code create} for it and all inside it, {@code move} where it isn't last;
 * then {@code set} and {@code add} for the values, and the links</td></tr>
 * <tr><td>the same, an element of the store</td><td>{@code move}</td></tr>
 * <tr><td>REMOVE, REMOVE_MANY, SET, UNSET of a place</td><td>{@code delete} for each element that isn't in the resource any more</td></tr>
 * <tr><td>MOVE of a place</td><td>{@code move}</td></tr>
 * </table>
 *
 * Several lines of one notification are a composite. Where a line is refused, all of the notification is taken back, in the store and in the
 * resource, and the call that changed the resource ends by a {@link RefusedException}. The test's {@code notifications.txt} has an example of each.
 */
public final class Recorder extends EContentAdapter implements AutoCloseable {
    /** What becomes of a composite that is open in a workspace which is taken up again. */
    public enum OpenComposite { END, UNDO }

    private final Store store;
    private final Workspace workspace;
    private final Profile profile;
    private final Resource resource;
    private final Ids ids = new Ids();
    private final Planner planner;
    private boolean isPaused;
    private boolean isUnloaded;
    private boolean isReloaded;

    private Recorder(Workspace workspace, Profile profile, Resource resource) {
        this.workspace = workspace;
        this.profile = profile;
        this.resource = resource;
        store = workspace.store();
        planner = new Planner(profile, resource, ids, new Lines(workspace.number(), profile, ids));
    }

    /**
     * Makes a new workspace, of the version, branch or tag that the text names, and fills a resource with its model. From then on changes are
     * recorded. What the resource can't hold, as where a setter throws, stands among its errors.
     *
     * @throws RefusedException where there is no such version, branch or tag
     * @throws IllegalStateException where the resource is recorded already
     * @throws IllegalArgumentException where the store has another metamodel than the profile
     */
    public static Recorder checkout(Store store, Profile profile, String version, Resource resource) {
        checkFree(resource);
        return store.alone(() -> {
            Reply reply = store.send("checkout " + version);
            Workspace made = new Workspace(store, reply.number(0), reply.number(1));
            Recorder recorder = new Recorder(made, profile, resource);
            try {
                recorder.start(reply.data().get(0));
            } catch (IllegalArgumentException otherMetamodel) {
                made.drop();
                throw otherMetamodel;
            }
            return recorder;
        });
    }

    /**
     * Takes a workspace up again, with all that is recorded in it, and fills a resource with its model. A composite that is open is ended, so that
     * what it has stays recorded.
     *
     * @throws RefusedException where there is no such workspace
     * @throws IllegalStateException where the resource is recorded already
     * @throws IllegalArgumentException where the store has another metamodel than the profile
     */
    public static Recorder open(Store store, Profile profile, int workspace, Resource resource) {
        return open(store, profile, workspace, resource, OpenComposite.END);
    }

    /** The same, with what is to become of a composite that is open: one that a kill has cut off may be half of what it was to be. */
    public static Recorder open(Store store, Profile profile, int workspace, Resource resource, OpenComposite open) {
        checkFree(resource);
        return store.alone(() -> {
            Workspace found = new Workspace(store, workspace);
            List<Operation> changes = found.changes();
            if (found.isComposite()) {
                found.end();
                if (open == OpenComposite.UNDO && !changes.get(changes.size() - 1).steps().isEmpty()) {
                    found.undo();
                }
            }
            Recorder recorder = new Recorder(found, profile, resource);
            recorder.start(found.show());
            return recorder;
        });
    }

    /** The workspace, with all of its calls. The resource follows each of them. */
    public Workspace workspace() {
        return workspace;
    }

    /** The resource that is recorded. */
    public Resource resource() {
        return resource;
    }

    /** As {@link Workspace#commit}. */
    public int commit(String message) {
        return workspace.commit(message);
    }

    /** As {@link Workspace#signed}. */
    public int signed(String author, long moment, String message) {
        return workspace.signed(author, moment, message);
    }

    /** As {@link Workspace#update(Function)}. */
    public int update(Function<Conflict, Choice> chooser) {
        return workspace.update(chooser);
    }

    /** As {@link Workspace#update(Choice)}. */
    public int update(Choice all) {
        return workspace.update(all);
    }

    /** As {@link Workspace#merge(String, Function)}. */
    public int merge(String branch, Function<Conflict, Choice> chooser) {
        return workspace.merge(branch, chooser);
    }

    /** As {@link Workspace#merge(String, Choice)}. */
    public int merge(String branch, Choice all) {
        return workspace.merge(branch, all);
    }

    /** Makes the resource what the workspace holds. */
    public void show() {
        store.alone(() -> fill(workspace.show()));
    }

    /**
     * Records all changes of some edits as one operation of that name. Where the edits end by an exception, or one is refused, all are taken back.
     * Other threads' calls of the store wait.
     *
     * @throws RefusedException where the program takes no such name, or a composite is open
     */
    public void composite(String name, Runnable edits) {
        store.alone(() -> {
            workspace.begin(name);
            try {
                edits.run();
            } catch (EndedException end) {
                throw end;
            } catch (RuntimeException | Error fault) {
                takeBack();
                throw fault;
            }
            if (!workspace.isComposite()) {
                throw new IllegalStateException("a change was refused, and the composite taken back");
            }
            workspace.end();
            planner.keep();
        });
    }

    /** The id of an element in the store, or null for one outside. */
    public String id(EObject element) {
        return ids.id(element);
    }

    /** How many links of the resource the store doesn't have, as their targets are outside of the resource. */
    public long outside() {
        return ids.elements().stream().flatMap(it -> profile.features(it.eClass()).values().stream()
                .filter(feature -> feature.kind() == Kind.REFERENCE).flatMap(feature -> ModelText.targets(it, feature.reference()).stream()))
                .filter(it -> ids.id(it) == null).count();
    }

    /** The text of the resource, byte for byte what {@code show} prints where all is recorded. */
    String text() {
        return ModelText.ofModel(profile, ids, ModelText.roots(resource));
    }

    /** Ends the recording. The workspace stays, and the resource is as it is. */
    @Override
    public void close() {
        workspace.follow(steps -> { });
        resource.eAdapters().remove(this);
    }

    @Override
    public void notifyChanged(Notification notification) {
        super.notifyChanged(notification);
        boolean isChange = notification.getEventType() != Notification.RESOLVE && notification.getEventType() != Notification.REMOVING_ADAPTER;
        if (!isPaused && isChange && !followsLoading(notification)) {
            store.alone(() -> record(notification));
        }
    }

    private void record(Notification notification) {
        try {
            send(planner.plan(notification));
        } catch (RefusedException | IllegalArgumentException refused) {
            takeBack();
            throw refused;
        }
    }

    private static void checkFree(Resource resource) {
        if (resource.eAdapters().stream().anyMatch(Recorder.class::isInstance)) {
            throw new IllegalStateException("the resource is recorded already: close that Recorder before");
        }
    }

    private void start(String text) {
        fill(text);
        resource.eAdapters().add(this);
        workspace.follow(this::follow);
    }

    /**
     * Follows the unloading and reloading of the resource, and says whether the notification is of these or after them, and so no edit. EMF says that
     * a resource isn't loaded before it clears the contents. Once it is loaded again it gets the workspace's model in place of what was loaded.
     */
    private boolean followsLoading(Notification notification) {
        if (notification.getNotifier() != resource) {
            return isUnloaded;
        }
        int feature = notification.getFeatureID(Resource.class);
        if (feature == Resource.RESOURCE__IS_LOADED) {
            if (!resource.isLoaded()) {
                unload();
            } else if (isUnloaded && (isReloaded || resource.getContents().isEmpty())) {
                reload();
            }
        } else if (feature == Resource.RESOURCE__CONTENTS && !resource.isLoaded()) {
            unload();
        } else if (feature == Resource.RESOURCE__CONTENTS && isUnloaded) {
            isReloaded |= ((Resource.Internal) resource).isLoading();
            if (!isReloaded) {
                reload();
                throw new IllegalArgumentException("the resource was unloaded: it has the workspace's model again, without this change");
            }
        }
        return isUnloaded || feature != Resource.RESOURCE__CONTENTS;
    }

    private void unload() {
        isUnloaded = true;
        isReloaded = false;
        planner.forget();
    }

    private void reload() {
        isUnloaded = false;
        show();
    }

    /** Makes the resource follow a call that changed the workspace's model. */
    private void follow(List<Step> steps) {
        if (isUnloaded) {
            return;
        }
        if (steps == null || !isPlayed(steps)) {
            show();
        }
    }

    private boolean isPlayed(List<Step> steps) {
        StepPlayer player = new StepPlayer(profile, ids);
        isPaused = true;
        try {
            boolean isPlayed = player.play(steps);
            if (isPlayed) {
                planner.take(player);
            }
            return isPlayed;
        } finally {
            isPaused = false;
        }
    }

    private void fill(String text) {
        isPaused = true;
        try {
            ModelFiller filled = ModelFiller.fill(resource, profile, ids, text);
            send(planner.plan(filled));
        } finally {
            isPaused = false;
        }
    }

    private void send(List<String> commands) {
        boolean isOwn = commands.size() > 1 && !workspace.isComposite();
        if (isOwn) {
            workspace.begin("change");
        }
        commands.forEach(store::send);
        if (isOwn) {
            workspace.end();
        }
        if (!workspace.isComposite()) {
            planner.keep();
        }
    }

    /** Takes the open composite back, if there is one, and makes the resource what the workspace holds then. */
    private void takeBack() {
        if (workspace.isComposite()) {
            List<Operation> changes = workspace.changes();
            workspace.end();
            if (!changes.get(changes.size() - 1).steps().isEmpty()) {
                store.send("undo " + workspace.number());
            }
        }
        planner.takeBack();
        show();
    }
}
