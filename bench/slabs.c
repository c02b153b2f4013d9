/* The plan edges of a generated model, their crossings and the slabs of a direction, by plain loops with
 * floating point: slabs apart|crossed|stairs x|y. Edges by where they begin, each with those that begin
 * before it ends; one sort of the crossings, one of the abscissae, and one of the spanning edges for each
 * slab, by their values amid it. No limit is looked at. */
#include <stdio.h>
#include <stdlib.h>
#include <string.h>

typedef double num;
typedef struct { num ax, ay, bx, by; } edge;
typedef struct { num x, y; } point;
typedef struct { num value; int place; } item;

static edge edges[2048];
static const edge *by_left[2048];
static point points[1 << 20];
static num list[1 << 20];
static item items[2048];
static int count, found, along_y;

static void rectangle(num x0, num x1, num y0, num y1)
{
    edges[count++] = (edge){ x0, y0, x1, y0 };
    edges[count++] = (edge){ x1, y0, x1, y1 };
    edges[count++] = (edge){ x1, y1, x0, y1 };
    edges[count++] = (edge){ x0, y1, x0, y0 };
}

static void generate(const char *shape)
{
    for (num i = 0; i < 512; i++) {
        if (!strcmp(shape, "apart")) rectangle(20 * i, 20 * i + 10, 0, 10);
        else if (!strcmp(shape, "stairs")) rectangle(i, i + 1000, 20 * i, 20 * i + 10);
        else if (i < 16) rectangle(0, 1000, 20 * i + 10, 20 * i + 20);
        else if (i < 32) rectangle(20 * (i - 16) + 10, 20 * (i - 16) + 20, 0, 1000);
        else rectangle(2000 + 20 * i, 2000 + 20 * i + 10, 0, 10);
    }
}

static num least(num a, num b) { return a < b ? a : b; }
static num most(num a, num b) { return a > b ? a : b; }

/* the crossing of two edges, strictly inside both */
static void cross(const edge *e, const edge *f)
{
    num rx = e->bx - e->ax, ry = e->by - e->ay, sx = f->bx - f->ax, sy = f->by - f->ay;
    num w = rx * sy - ry * sx;
    if (w == 0) return;
    num cx = f->ax - e->ax, cy = f->ay - e->ay;
    num t = (cx * sy - cy * sx) / w, u = (cx * ry - cy * rx) / w;
    if (t <= 0 || t >= 1 || u <= 0 || u >= 1) return;
    points[found++] = (point){ e->ax + t * rx, e->ay + t * ry };
}

static int order_of(num a, num b) { return (a > b) - (a < b); }

static int by_begin(const void *a, const void *b)
{
    const edge *e = *(const edge **)a, *f = *(const edge **)b;
    return order_of(least(e->ax, e->bx), least(f->ax, f->bx));
}

static int by_point(const void *a, const void *b)
{
    const point *p = a, *q = b;
    int x = order_of(p->x, q->x);
    return x ? x : order_of(p->y, q->y);
}

static int by_number(const void *a, const void *b) { return order_of(*(num *)a, *(num *)b); }

/* the values amid the slab, then the places */
static int by_value(const void *a, const void *b)
{
    const item *p = a, *q = b;
    int x = order_of(p->value, q->value);
    return x ? x : p->place - q->place;
}

static num u_of(num x, num y) { return along_y ? y : x; }
static num v_of(num x, num y) { return along_y ? -x : y; }

int main(int argc, char **argv)
{
    if (argc != 3) return 1;
    along_y = argv[2][0] == 'y';
    generate(argv[1]);
    for (int i = 0; i < count; i++) by_left[i] = &edges[i];
    qsort(by_left, count, sizeof *by_left, by_begin);
    for (int i = 0; i < count; i++)
        for (int j = i + 1; j < count; j++) {
            const edge *e = by_left[i], *f = by_left[j];
            if (least(f->ax, f->bx) > most(e->ax, e->bx)) break;
            cross(e, f);
        }
    qsort(points, found, sizeof *points, by_point);
    int kept = 0;
    for (int i = 0; i < found; i++)
        if (!kept || by_point(&points[kept - 1], &points[i])) points[kept++] = points[i];
    int many = 0;
    for (int i = 0; i < count; i++) {
        list[many++] = u_of(edges[i].ax, edges[i].ay);
        list[many++] = u_of(edges[i].bx, edges[i].by);
    }
    for (int i = 0; i < kept; i++) list[many++] = u_of(points[i].x, points[i].y);
    qsort(list, many, sizeof *list, by_number);
    int once = 0;
    for (int i = 0; i < many; i++)
        if (!once || list[once - 1] != list[i]) list[once++] = list[i];
    long slabs = 0, places = 0;
    for (int k = 0; k + 1 < once; k++) {
        num at = list[k], amid = (list[k] + list[k + 1]) / 2;
        int n = 0;
        for (int i = 0; i < count; i++) {
            num ua = u_of(edges[i].ax, edges[i].ay), ub = u_of(edges[i].bx, edges[i].by);
            if ((ua > at) == (ub > at)) continue;
            num va = v_of(edges[i].ax, edges[i].ay), vb = v_of(edges[i].bx, edges[i].by);
            items[n++] = (item){ va + (amid - ua) * (vb - va) / (ub - ua), i };
        }
        qsort(items, n, sizeof *items, by_value);
        slabs++;
        places += n;
    }
    printf("%d edges, %d crossings, %ld slabs, %ld places\n", count, kept, slabs, places);
    return 0;
}
