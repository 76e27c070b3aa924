package emfstore.client;

import org.eclipse.emf.common.notify.Notification;
import org.eclipse.emf.common.notify.NotificationChain;
import org.eclipse.emf.common.util.EList;
import org.eclipse.emf.ecore.EClass;
import org.eclipse.emf.ecore.EObject;
import org.eclipse.emf.ecore.EPackage;
import org.eclipse.emf.ecore.InternalEObject;
import org.eclipse.emf.ecore.impl.EFactoryImpl;
import org.eclipse.emf.ecore.impl.ENotificationImpl;
import org.eclipse.emf.ecore.impl.MinimalEObjectImpl;
import org.eclipse.emf.ecore.util.EDataTypeEList;
import org.eclipse.emf.ecore.util.EDataTypeUniqueEList;
import org.eclipse.emf.ecore.util.EObjectContainmentWithInverseEList;
import org.eclipse.emf.ecore.util.EObjectResolvingEList;
import org.eclipse.emf.ecore.util.EObjectWithInverseResolvingEList;
import org.eclipse.emf.ecore.util.InternalEList;

/** The class of parts.ecore in Java, with fields and lists as EMF's generator makes them. Its setter refuses one label. */
final class Part extends MinimalEObjectImpl.Container {
    /** The label that the setter throws at. */
    static final String REFUSED = "refused";
    private static final int LABEL = 0;
    private static final int COUNT = 1;
    private static final int TAGS = 2;
    private static final int NUMBERS = 3;
    private static final int PARTS = 4;
    private static final int WHOLE = 5;
    private static final int NEXT = 6;
    private static final int BEFORE = 7;
    private static final int OTHERS = 8;
    private static final int SEES = 9;
    private static final int SEEN = 10;
    private static final int DEFAULT_COUNT = 3;

    private final EClass owner;
    private final EList<String> tags = new EDataTypeUniqueEList<>(String.class, this, TAGS);
    private final EList<Integer> numbers = new EDataTypeEList<>(Integer.class, this, NUMBERS);
    private final EList<Part> parts = new EObjectContainmentWithInverseEList<>(Part.class, this, PARTS, WHOLE);
    private final EList<Part> others = new EObjectResolvingEList<>(Part.class, this, OTHERS);
    private final EList<Part> sees = new EObjectWithInverseResolvingEList.ManyInverse<>(Part.class, this, SEES, SEEN);
    private final EList<Part> seen = new EObjectWithInverseResolvingEList.ManyInverse<>(Part.class, this, SEEN, SEES);
    private String label;
    private int count = DEFAULT_COUNT;
    private Part next;
    private Part before;

    private Part(EClass owner) {
        this.owner = owner;
    }

    /** Lets the package make objects of this class. */
    static void bind(EPackage parts) {
        parts.setEFactoryInstance(new EFactoryImpl() {
            @Override
            public EObject create(EClass owner) {
                return new Part(owner);
            }
        });
    }

    @Override
    protected EClass eStaticClass() {
        return owner;
    }

    @Override
    public Object eGet(int feature, boolean resolve, boolean isCore) {
        return switch (feature) {
            case LABEL -> label;
            case COUNT -> count;
            case WHOLE -> eContainerFeatureID() == WHOLE ? eInternalContainer() : null;
            case NEXT -> next;
            case BEFORE -> before;
            default -> list(feature);
        };
    }

    private EList<?> list(int feature) {
        return switch (feature) {
            case TAGS -> tags;
            case NUMBERS -> numbers;
            case PARTS -> parts;
            case OTHERS -> others;
            case SEES -> sees;
            default -> seen;
        };
    }

    @Override
    @SuppressWarnings("unchecked")
    public void eSet(int feature, Object value) {
        switch (feature) {
            case LABEL -> setLabel((String) value);
            case COUNT -> setCount((Integer) value);
            case WHOLE -> throw new UnsupportedOperationException("a whole is given by its list of parts");
            case NEXT -> setNext((Part) value);
            case BEFORE -> setBefore((Part) value);
            default -> {
                EList<Object> list = (EList<Object>) list(feature);
                list.clear();
                list.addAll((java.util.Collection<Object>) value);
            }
        }
    }

    private void setLabel(String value) {
        if (REFUSED.equals(value)) {
            throw new IllegalStateException("no such label");
        }
        String old = label;
        label = value;
        if (eNotificationRequired()) {
            eNotify(new ENotificationImpl(this, Notification.SET, LABEL, old, value));
        }
    }

    private void setCount(int value) {
        int old = count;
        count = value;
        if (eNotificationRequired()) {
            eNotify(new ENotificationImpl(this, Notification.SET, COUNT, old, value));
        }
    }

    private void setNext(Part value) {
        if (value != next) {
            NotificationChain told = next == null ? null : next.eInverseRemove(this, BEFORE, Part.class, null);
            told = value == null ? told : value.eInverseAdd(this, BEFORE, Part.class, told);
            dispatch(basicSetNext(value, told));
        } else if (eNotificationRequired()) {
            eNotify(new ENotificationImpl(this, Notification.SET, NEXT, value, value));
        }
    }

    private void setBefore(Part value) {
        if (value != before) {
            NotificationChain told = before == null ? null : before.eInverseRemove(this, NEXT, Part.class, null);
            told = value == null ? told : value.eInverseAdd(this, NEXT, Part.class, told);
            dispatch(basicSetBefore(value, told));
        } else if (eNotificationRequired()) {
            eNotify(new ENotificationImpl(this, Notification.SET, BEFORE, value, value));
        }
    }

    private static void dispatch(NotificationChain told) {
        if (told != null) {
            told.dispatch();
        }
    }

    private NotificationChain basicSetNext(Part value, NotificationChain told) {
        Part old = next;
        next = value;
        return told(NEXT, old, value, told);
    }

    private NotificationChain basicSetBefore(Part value, NotificationChain told) {
        Part old = before;
        before = value;
        return told(BEFORE, old, value, told);
    }

    private NotificationChain told(int feature, Part old, Part value, NotificationChain told) {
        if (!eNotificationRequired()) {
            return told;
        }
        ENotificationImpl notification = new ENotificationImpl(this, Notification.SET, feature, old, value);
        if (told == null) {
            return notification;
        }
        told.add(notification);
        return told;
    }

    @Override
    public void eUnset(int feature) {
        switch (feature) {
            case LABEL -> setLabel(null);
            case COUNT -> setCount(DEFAULT_COUNT);
            case NEXT -> setNext(null);
            case BEFORE -> setBefore(null);
            default -> list(feature).clear();
        }
    }

    @Override
    public boolean eIsSet(int feature) {
        return switch (feature) {
            case LABEL -> label != null;
            case COUNT -> count != DEFAULT_COUNT;
            case WHOLE -> eContainerFeatureID() == WHOLE && eInternalContainer() != null;
            case NEXT -> next != null;
            case BEFORE -> before != null;
            default -> !list(feature).isEmpty();
        };
    }

    @Override
    @SuppressWarnings("unchecked")
    public NotificationChain eInverseAdd(InternalEObject other, int feature, NotificationChain told) {
        NotificationChain chain = told;
        switch (feature) {
            case WHOLE -> {
                chain = eInternalContainer() == null ? chain : eBasicRemoveFromContainer(chain);
                return eBasicSetContainer(other, WHOLE, chain);
            }
            case NEXT -> {
                chain = next == null ? chain : next.eInverseRemove(this, BEFORE, Part.class, chain);
                return basicSetNext((Part) other, chain);
            }
            case BEFORE -> {
                chain = before == null ? chain : before.eInverseRemove(this, NEXT, Part.class, chain);
                return basicSetBefore((Part) other, chain);
            }
            default -> {
                return ((InternalEList<InternalEObject>) list(feature)).basicAdd(other, chain);
            }
        }
    }

    @Override
    public NotificationChain eInverseRemove(InternalEObject other, int feature, NotificationChain told) {
        return switch (feature) {
            case WHOLE -> eBasicSetContainer(null, WHOLE, told);
            case NEXT -> basicSetNext(null, told);
            case BEFORE -> basicSetBefore(null, told);
            default -> ((InternalEList<?>) list(feature)).basicRemove(other, told);
        };
    }

    @Override
    public NotificationChain eBasicRemoveFromContainerFeature(NotificationChain told) {
        return eInternalContainer().eInverseRemove(this, PARTS, Part.class, told);
    }
}
