// A known burst of events by threads and processes named "burst". burst [ROUNDS] [SCRATCHDEV]
#define _GNU_SOURCE
#include <pthread.h>
#include <sched.h>
#include <stdio.h>
#include <stdlib.h>
#include <string.h>
#include <unistd.h>
#include <fcntl.h>
#include <signal.h>
#include <errno.h>
#include <sys/syscall.h>
#include <sys/prctl.h>
#include <sys/wait.h>
#include <sys/mman.h>
#include <sys/stat.h>
#include <sys/time.h>
#include <time.h>
static int rounds = 40; static const char *dev; static int ncpu;
static void pin(int c){ cpu_set_t s; CPU_ZERO(&s); CPU_SET(c % ncpu,&s); sched_setaffinity(0,sizeof s,&s); }
static void nap(long ms){ struct timespec t={ms/1000,(ms%1000)*1000000L}; nanosleep(&t,0); }
static unsigned rnd(unsigned *s){ *s = *s*1103515245u+12345u; return (*s>>16)&0x7fff; }
static char buf[1<<20];
static void calls(int who){
  unsigned s = who*7+1; int z=open("/dev/zero",O_RDONLY), n=open("/dev/null",O_WRONLY); int p[2]; pipe(p);
  char name[64]; 
  for(int i=0;i<rounds;i++){
    unsigned k=rnd(&s);
    read(z,buf+who*4096,k%5000); write(n,buf,(k*37)%100000);
    if(i%3==0) lseek(n,-(long)k,SEEK_SET);
    if(i%4==0) { read(-1,buf,k); }
    if(i%5==0) { snprintf(name,sizeof name,"/nonexistent/%d",i); open(name,O_RDONLY); }
    if(i%7==0) getppid();
    if(i%6==0) { write(p[1],buf,k%300); read(p[0],buf,4096); }
    if(i%9==0) kill(getpid(),0);
    if(i%10==0) { int d=dup(z); close(d); }
    if(i%11==0) { void*m=mmap(0,65536,PROT_READ|PROT_WRITE,MAP_PRIVATE|MAP_ANONYMOUS,-1,0); for(int j=0;j<16;j++) ((char*)m)[j*4096]=1; munmap(m,65536); }
    if(i%8==0) syscall(SYS_fcntl,(long)n,1234567L,0xfedcba9876543210L);
    if(i%13==0) syscall(SYS_lseek,(long)n,-5000000000L,0L);
    if(i%12==5) syscall(SYS_tgkill,getpid(),syscall(SYS_gettid),SIGUSR1); if(i%10==3) nap(20);
  }
  close(z); close(n); close(p[0]); close(p[1]);
}
static void *thread(void*a){ long w=(long)a; pin(w); calls(w); return 0; }
static void usr1(int x){ (void)x; }
static void users(void){   // who is root drops it in several ways; each in a process that is gone soon
  for(int i=0;i<6;i++){ pid_t f=fork(); if(!f){ getppid();
      if(i%3==0){ setgid(100+i); setuid(2000+i); } else if(i%3==1){ setresgid(100+i,100+i,100+i); setresuid(2000+i,2000+i,2000+i); }
      else { setregid(-1,5); setreuid(2000+i,-1); setuid(2000+i); }
      getppid(); pid_t g=fork(); if(!g){ getppid(); _exit(0); } int st; waitpid(g,&st,0); if(i>3) nap(150); getppid(); _exit(0); } int st; waitpid(f,&st,0); } }
static void names(void){ for(int i=0;i<4;i++){ pid_t f=fork(); if(!f){ prctl(PR_SET_NAME,"burst-two"); getppid(); prctl(PR_SET_NAME,"burst"); getppid(); _exit(0); } int st; waitpid(f,&st,0); } }
static void timers(void){ struct itimerval t={{0,7000},{0,7000}}; signal(SIGALRM,usr1); setitimer(ITIMER_REAL,&t,0); for(int i=0;i<20;i++) nap(30); memset(&t,0,sizeof t); setitimer(ITIMER_REAL,&t,0); nap(20); }
int main(int c,char**v){
  if(c>1) rounds=atoi(v[1]); if(c>2) dev=v[2];
  ncpu=sysconf(_SC_NPROCESSORS_ONLN); prctl(PR_SET_NAME,"burst");
  signal(SIGUSR1,usr1);
  nap(700);                       // long enough for a look at /proc
  calls(0);
  pthread_t t[64]; int nt=c>3?atoi(v[3]):ncpu<8?ncpu:8; for(long i=0;i<nt;i++) pthread_create(&t[i],0,thread,(void*)(i+1)); for(int i=0;i<nt;i++) pthread_join(t[i],0);
  for(int i=0;i<6;i++){ pid_t f=fork(); if(!f){ pin(i); nap(400); calls(i+20); nap(20); _exit(i); } for(int j=0;j<3;j++){ kill(f,SIGUSR1); nap(5);} int st; waitpid(f,&st,0);}
  for(int i=0;i<5;i++){ pid_t f=fork(); if(!f){ getppid(); _exit(7); } int st; waitpid(f,&st,0);}   // short lived
  if(dev){ int d=open(dev,O_RDWR|O_DIRECT); if(d<0) perror(dev); else { char*b=mmap(0,1<<20,PROT_READ|PROT_WRITE,MAP_PRIVATE|MAP_ANONYMOUS,-1,0); unsigned s=5;
    for(int i=0;i<rounds;i++){ long sz=4096L<<(rnd(&s)%8); long off=(rnd(&s)%512)*4096L; if(i%3) pread(d,b,sz,off); else pwrite(d,b,sz,off); } close(d);} }
  nap(100);
  users(); names(); timers(); if(getuid()==0){ setgid(100); setuid(1000); } calls(40);
  nap(100);
  syscall(SYS_fcntl,-77L,1234L,0L);   // the last: fd -77
  return 0; }
