// The driver of checks/kubernetes: the StatefulSet controller of the source tree that this file is put into, over an API server
// that keeps objects in memory. It reads commands as JSON, and answers each by a line with all objects.
package statefulset

import (
	"context"
	"encoding/json"
	"fmt"
	"os"
	"testing"
	"time"

	apps "k8s.io/api/apps/v1"
	v1 "k8s.io/api/core/v1"
	apiequality "k8s.io/apimachinery/pkg/api/equality"
	"k8s.io/apimachinery/pkg/api/meta"
	metav1 "k8s.io/apimachinery/pkg/apis/meta/v1"
	"k8s.io/apimachinery/pkg/runtime"
	"k8s.io/apimachinery/pkg/types"
	"k8s.io/client-go/informers"
	"k8s.io/client-go/kubernetes/fake"
	clienttesting "k8s.io/client-go/testing"
)

const namespace, setName = "default", "web"

// command is what to do, before all objects are written.
type command struct {
	Do     string                // new, pass, set, create, status, mark, remove or labels
	Name   string                // of the pod
	Spec   *apps.StatefulSetSpec // of the set
	Pod    *v1.Pod
	Status v1.PodStatus
	Labels map[string]string
}

type answer struct {
	Error     string                     `json:"error,omitempty"`
	Set       *apps.StatefulSet          `json:"set"`
	Pods      []v1.Pod                   `json:"pods"`
	Revisions []apps.ControllerRevision  `json:"revisions"`
	Claims    []v1.PersistentVolumeClaim `json:"claims"`
}

// cluster is an API server and the controller over it.
type cluster struct {
	client     *fake.Clientset
	informers  informers.SharedInformerFactory
	controller *StatefulSetController
	writes     int
}

func newCluster() *cluster {
	c := &cluster{client: fake.NewSimpleClientset()}
	c.client.PrependReactor("create", "*", c.create)
	c.client.PrependReactor("update", "*", c.update)
	c.client.PrependReactor("delete", "pods", c.deletePod)
	c.informers = informers.NewSharedInformerFactory(c.client, 0)
	apps, core := c.informers.Apps().V1(), c.informers.Core().V1()
	c.controller = NewStatefulSetController(
		core.Pods(), apps.StatefulSets(), core.PersistentVolumeClaims(), apps.ControllerRevisions(), c.client)
	return c
}

// create gives an object its UID and version, and a pod its phase.
func (c *cluster) create(action clienttesting.Action) (bool, runtime.Object, error) {
	object := action.(clienttesting.CreateAction).GetObject()
	if action.GetResource().Resource == "events" {
		return true, object, nil
	}
	c.stamp(object, true)
	if pod, isPod := object.(*v1.Pod); isPod && pod.Status.Phase == "" {
		pod.Status.Phase = v1.PodPending
	}
	return true, object, c.client.Tracker().Create(action.GetResource(), object, action.GetNamespace())
}

func (c *cluster) update(action clienttesting.Action) (bool, runtime.Object, error) {
	object := action.(clienttesting.UpdateAction).GetObject()
	c.stamp(object, false)
	return true, object, c.client.Tracker().Update(action.GetResource(), object, action.GetNamespace())
}

func (c *cluster) stamp(object runtime.Object, isNew bool) {
	c.writes++
	accessor, _ := meta.Accessor(object)
	accessor.SetResourceVersion(fmt.Sprint(c.writes))
	if isNew {
		accessor.SetUID(types.UID(fmt.Sprintf("uid-%d", c.writes)))
		accessor.SetGeneration(1)
	}
}

// deletePod marks the pod for a kubelet, but takes a finished one away, as an API server does (CheckGracefulDelete).
func (c *cluster) deletePod(action clienttesting.Action) (bool, runtime.Object, error) {
	name, resource := action.(clienttesting.DeleteAction).GetName(), action.GetResource()
	object, err := c.client.Tracker().Get(resource, namespace, name)
	if err != nil {
		return true, nil, err
	}
	pod := object.(*v1.Pod)
	if pod.Status.Phase == v1.PodFailed || pod.Status.Phase == v1.PodSucceeded {
		return true, nil, c.client.Tracker().Delete(resource, namespace, name)
	}
	if pod.DeletionTimestamp == nil {
		c.stamp(pod, false)
		pod.DeletionTimestamp = &metav1.Time{Time: time.Unix(1704067200, 0)}
	}
	return true, nil, c.client.Tracker().Update(resource, pod, namespace)
}

func (c *cluster) objects() (found answer) {
	ctx, all := context.TODO(), metav1.ListOptions{}
	pods, _ := c.client.CoreV1().Pods(namespace).List(ctx, all)
	claims, _ := c.client.CoreV1().PersistentVolumeClaims(namespace).List(ctx, all)
	revisions, _ := c.client.AppsV1().ControllerRevisions(namespace).List(ctx, all)
	found.Pods, found.Claims, found.Revisions = pods.Items, claims.Items, revisions.Items
	if set, err := c.client.AppsV1().StatefulSets(namespace).Get(ctx, setName, metav1.GetOptions{}); err == nil {
		found.Set = set
	}
	return found
}

// pass lets the controller look at all objects, and do what it does then.
func (c *cluster) pass() error {
	found := c.objects()
	var pods, claims, revisions []interface{}
	for i := range found.Pods {
		pods = append(pods, &found.Pods[i])
	}
	for i := range found.Claims {
		claims = append(claims, &found.Claims[i])
	}
	for i := range found.Revisions {
		revisions = append(revisions, &found.Revisions[i])
	}
	apps, core := c.informers.Apps().V1(), c.informers.Core().V1()
	core.Pods().Informer().GetIndexer().Replace(pods, "")
	core.PersistentVolumeClaims().Informer().GetIndexer().Replace(claims, "")
	apps.ControllerRevisions().Informer().GetIndexer().Replace(revisions, "")
	apps.StatefulSets().Informer().GetIndexer().Replace([]interface{}{found.Set}, "")
	return c.controller.sync(namespace + "/" + setName)
}

// setSpec creates the set, or gives it another spec, and then another generation.
func (c *cluster) setSpec(spec *apps.StatefulSetSpec) error {
	sets := c.client.AppsV1().StatefulSets(namespace)
	set, err := sets.Get(context.TODO(), setName, metav1.GetOptions{})
	if err != nil {
		set = &apps.StatefulSet{ObjectMeta: metav1.ObjectMeta{Name: setName, Namespace: namespace}, Spec: *spec}
		_, err = sets.Create(context.TODO(), set, metav1.CreateOptions{})
		return err
	}
	if !apiequality.Semantic.DeepEqual(set.Spec, *spec) {
		set.Spec = *spec
		set.Generation++
	}
	_, err = sets.Update(context.TODO(), set, metav1.UpdateOptions{})
	return err
}

// changePod changes the pod of that name.
func (c *cluster) changePod(name string, change func(pod *v1.Pod)) error {
	pods := c.client.CoreV1().Pods(namespace)
	pod, err := pods.Get(context.TODO(), name, metav1.GetOptions{})
	if err == nil {
		change(pod)
		_, err = pods.Update(context.TODO(), pod, metav1.UpdateOptions{})
	}
	return err
}

func (c *cluster) do(asked command) error {
	pods := c.client.CoreV1().Pods(namespace)
	switch asked.Do {
	case "pass":
		return c.pass()
	case "set":
		return c.setSpec(asked.Spec)
	case "create":
		_, err := pods.Create(context.TODO(), asked.Pod, metav1.CreateOptions{})
		return err
	case "status":
		return c.changePod(asked.Name, func(pod *v1.Pod) { pod.Status = asked.Status })
	case "labels":
		return c.changePod(asked.Name, func(pod *v1.Pod) { pod.Labels = asked.Labels })
	case "mark":
		return pods.Delete(context.TODO(), asked.Name, metav1.DeleteOptions{})
	case "remove":
		return c.client.Tracker().Delete(v1.SchemeGroupVersion.WithResource("pods"), namespace, asked.Name)
	}
	return fmt.Errorf("unknown command %q", asked.Do)
}

func TestMain(m *testing.M) {
	c, in, out := newCluster(), json.NewDecoder(os.Stdin), json.NewEncoder(os.Stdout)
	for {
		var asked command
		if err := in.Decode(&asked); err != nil {
			return
		}
		var err error
		if asked.Do == "new" {
			c = newCluster()
		} else {
			err = c.do(asked)
		}
		found := c.objects()
		if err != nil {
			found.Error = err.Error()
		}
		out.Encode(found)
	}
}
