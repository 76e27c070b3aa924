package emfstore.client;

import java.io.IOException;
import java.util.ArrayList;
import java.util.List;
import java.util.Map;
import org.eclipse.emf.common.notify.Notification;
import org.eclipse.emf.common.util.URI;
import org.eclipse.emf.ecore.EPackage;
import org.eclipse.emf.ecore.xmi.impl.XMIResourceImpl;

/**
 * A resource whose model a workspace holds. {@code load} checks a version out, or takes a workspace up again, and from then on each change is
 * recorded. {@code save} commits. After a checkout the URI names the new workspace, so that a later {@code load} of it takes that up.
 *
 * <p>Each project has one metamodel, made of packages in an order. They are those that the option {@link #PACKAGES} gives, or else those whose nsURIs
 * stand in the query of the URI, as {@code packages=http://a/1,http://b/1}, and that the resource set knows.
 */
public final class StoreResource extends XMIResourceImpl {
    /** The option of {@code load} for the packages: a list of {@link EPackage}, in the order in which {@code ecore2script} had their files. */
    public static final String PACKAGES = "emfstore.packages";
    /** The option of {@code save} for the message of the commit, a text. */
    public static final String MESSAGE = "emfstore.message";

    private static final int NOTHING_LOCAL = 23;
    private static final int STALE = 24;

    private final StoreResourceFactory factory;
    private Recorder recorder;

    StoreResource(URI uri, StoreResourceFactory factory) {
        super(uri);
        this.factory = factory;
    }

    /** What records the changes, with the workspace and all its calls; null while the resource isn't loaded. */
    public Recorder recorder() {
        return recorder;
    }

    @Override
    public void load(Map<?, ?> options) throws IOException {
        if (isLoaded()) {
            return;
        }
        Profile profile = new Profile(packages(options == null ? Map.of() : options));
        try {
            Store store = factory.store(StoreResourceFactory.folder(getURI()));
            String number = query("workspace");
            recorder = number == null ? Recorder.checkout(store, profile, query("checkout"), this)
                    : Recorder.open(store, profile, Integer.parseInt(number), this);
        } catch (RuntimeException fault) {
            throw StoreResourceFactory.fault(fault);
        }
        setURI(URI.createURI(getURI().trimQuery() + "?" + queryOf(recorder.workspace().number())));
        Notification loaded = isLoaded() ? null : setLoaded(true);
        if (loaded != null) {
            eNotify(loaded);
        }
        setModified(false);
    }

    /**
     * Makes what is recorded a version. Where nothing is, nothing is made.
     *
     * @throws IOException where the branch has later versions, so that {@code recorder().update(..)} must come before, or the commit is refused
     *     otherwise
     */
    @Override
    public void save(Map<?, ?> options) throws IOException {
        if (recorder == null) {
            throw new IOException("the resource isn't loaded");
        }
        Object message = options == null ? null : options.get(MESSAGE);
        try {
            recorder.commit(message == null ? "" : message.toString());
        } catch (RefusedException refused) {
            if (refused.reply().refusal() == STALE) {
                throw new IOException("the branch has later versions: update before", refused);
            }
            if (refused.reply().refusal() != NOTHING_LOCAL) {
                throw new IOException(refused.getMessage(), refused);
            }
        } catch (EndedException ended) {
            throw ended.getCause();
        }
        setModified(false);
    }

    @Override
    protected void doUnload() {
        if (recorder != null) {
            recorder.close();
            recorder = null;
        }
        super.doUnload();
    }

    private String query(String name) throws IOException {
        for (String part : String.valueOf(getURI().query()).split("&")) {
            if (part.startsWith(name + "=")) {
                return URI.decode(part.substring(name.length() + 1));
            }
        }
        if (name.equals("checkout")) {
            throw new IOException("neither a workspace nor a checkout in " + getURI());
        }
        return null;
    }

    private String queryOf(int workspace) throws IOException {
        String named = query("packages");
        return "workspace=" + workspace + (named == null ? "" : "&packages=" + URI.encodeQuery(named, true));
    }

    private List<EPackage> packages(Map<?, ?> options) throws IOException {
        if (options.get(PACKAGES) instanceof List<?> given) {
            return given.stream().map(EPackage.class::cast).toList();
        }
        String named = query("packages");
        List<EPackage> found = new ArrayList<>();
        for (String uri : named == null ? new String[0] : named.split(",")) {
            EPackage known = (getResourceSet() == null ? EPackage.Registry.INSTANCE : getResourceSet().getPackageRegistry()).getEPackage(uri);
            if (known == null) {
                throw new IOException("no package " + uri);
            }
            found.add(known);
        }
        if (found.isEmpty()) {
            throw new IOException("neither the option " + PACKAGES + " nor packages in " + getURI());
        }
        return found;
    }
}
